/* The client's calls on one image. */
#include "packets.h"
#include "tally.h"
#include "tries.h"

void try_fresh(struct input *input, struct state *state) {
    size_t at = octet(input);
    const struct lent *image = lend_image(input, state, at);
#define WITH(side) SLICE(image, side)
    COMPARE(fresh, image->length);
#undef WITH
    keep_image(state, at, image);
}

/* The uptime is about the end of the poll interval. */
void try_ask(struct input *input, struct state *state) {
    size_t at = octet(input);
    const struct lent *image = lend_image(input, state, at), *buffer = lend_buffer(input, PONGULVESZ_PACKET);
    uint32_t version = number_within(input, 1, 4);
    uint64_t clock = number_near(input, UINT64_C(1) << 32), token = number_near(input, clock);
    uint64_t uptime = number_near(input, interval_end(image_at(state, at)));
#define WITH(side) SLICE(image, side), SLICE(buffer, side), version, clock, token, uptime
    uint32_t refusal = COMPARE(ask, version, clock, token, uptime);
#undef WITH
    keep_image(state, at, image);
    if (refusal == 0)
        keep_packet(state, buffer, PONGULVESZ_PACKET);
}

/* T4 is about T1. */
void try_arrival(struct input *input, struct state *state) {
    static const uint8_t other[40] = {0xC1, 0xC2, 0xC3};
    size_t at = octet(input);
    const struct lent *image = lend_image(input, state, at);
    const struct lent *answer = lend(other, length_about(input, PONGULVESZ_ANSWER, sizeof other));
    uint64_t t4 = number_near(input, pongulvesz_image_t1(image_at(state, at)));
    uint32_t alternate = number_within(input, 0, 1);
    const struct lent *packet = lend_packet(input, state, REPLY, image_at(state, at));
#define WITH(side) SLICE(image, side), SLICE(answer, side), t4, alternate, SLICE(packet, side)
    uint32_t refusal = COMPARE(arrival, t4, alternate);
#undef WITH
    keep_image(state, at, image);
    if (refusal == 0)
        count_answer(CALL_arrival, answer->independent);
}

/* The uptime is about 16 s past the ask's. */
void try_give_up(struct input *input, struct state *state) {
    size_t at = octet(input);
    const struct lent *image = lend_image(input, state, at);
    uint64_t uptime = number_near(input, pongulvesz_image_uptime(image_at(state, at)) + 16);
#define WITH(side) SLICE(image, side), uptime
    COMPARE(give_up, uptime);
#undef WITH
    keep_image(state, at, image);
}

void try_ask_due(struct input *input, struct state *state) {
    const struct lent *image = lend_image(input, state, octet(input)), *uptime = lend_number(8);
#define WITH(side) SLICE(image, side), uptime->side
    COMPARE(ask_due, image->length);
#undef WITH
}

void try_give_up_due(struct input *input, struct state *state) {
    const struct lent *image = lend_image(input, state, octet(input)), *uptime = lend_number(8);
#define WITH(side) SLICE(image, side), uptime->side
    COMPARE(give_up_due, image->length);
#undef WITH
}
