/* The calls for a list of servers. */
#include "packets.h"
#include "tally.h"
#include "tries.h"
#include <string.h>

/* The number of a record, mostly one that the list has. */
static size_t place_in_list(struct input *input, const struct state *state) {
    uint8_t form = octet(input);
    if (form >= 0xF0)
        return number(input, 8);
    size_t places = state->image_count + (form >= 0xE0);
    return places > 0 ? form % places : 0;
}

/* The number in use, mostly the state's. */
static size_t place_in_use(struct input *input, const struct state *state) {
    uint8_t form = octet(input);
    if (form >= 0xF0)
        return number(input, 8);
    return form >= 0x80 ? form % MOST_IMAGES : state->in_use;
}

/* The uptime is about the end of the poll interval. */
void try_list_ask(struct input *input, struct state *state) {
    size_t at = place_in_list(input, state), in_use = place_in_use(input, state);
    const struct lent *list = lend_list(input, state), *buffer = lend_buffer(input, PONGULVESZ_PACKET);
    uint32_t version = number_within(input, 1, 4);
    uint64_t clock = number_near(input, UINT64_C(1) << 32), token = number_near(input, clock);
    uint64_t uptime = number_near(input, interval_end(image_at(state, at)));
#define WITH(side) SLICE(list, side), at, in_use, SLICE(buffer, side), version, clock, token, uptime
    uint32_t refusal = COMPARE(list_ask, at, in_use, version, clock, token, uptime);
#undef WITH
    keep_list(state, list);
    if (refusal == 0)
        keep_packet(state, buffer, PONGULVESZ_PACKET);
}

/* T4 is about T1. */
void try_list_arrival(struct input *input, struct state *state) {
    static const uint8_t other[40] = {0xC1, 0xC2, 0xC3};
    size_t at = place_in_list(input, state), before = place_in_use(input, state);
    const struct lent *list = lend_list(input, state), *in_use = lend(&before, sizeof before);
    const struct lent *answer = lend(other, length_about(input, PONGULVESZ_ANSWER, sizeof other));
    uint64_t t4 = number_near(input, pongulvesz_image_t1(image_at(state, at)));
    const struct lent *packet = lend_packet(input, state, REPLY, image_at(state, at));
#define WITH(side) SLICE(list, side), at, in_use->side, SLICE(answer, side), t4, SLICE(packet, side)
    uint32_t refusal = COMPARE(list_arrival, at, t4);
#undef WITH
    keep_list(state, list);
    memcpy(&state->in_use, in_use->independent, sizeof state->in_use);
    if (refusal == 0)
        count_answer(CALL_list_arrival, answer->independent);
    if (state->in_use != before)
        count_told(CALL_list_arrival, state->in_use > before ? USE_WENT_ON : USE_WENT_BACK);
}

/* The uptime is about 16 s past the ask's. */
void try_list_give_up(struct input *input, struct state *state) {
    size_t at = place_in_list(input, state), in_use = place_in_use(input, state);
    const struct lent *list = lend_list(input, state);
    uint64_t uptime = number_near(input, pongulvesz_image_uptime(image_at(state, at)) + 16);
#define WITH(side) SLICE(list, side), at, in_use, uptime
    COMPARE(list_give_up, at, in_use, uptime);
#undef WITH
    keep_list(state, list);
}
