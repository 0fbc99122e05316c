/* Differences of timestamps, exchanges measured, and the fields of a packet. */
#include "packets.h"
#include "tries.h"

void try_difference(struct input *input, struct state *state) {
    uint64_t x = number_near(input, state->timestamp), y = number_near(input, x);
    const struct lent *difference = lend_number(8);
#define WITH(side) x, y, difference->side
    COMPARE(difference, x, y);
#undef WITH
}

/* Each timestamp is about the one that it is subtracted from. */
void try_measure(struct input *input, struct state *state) {
    uint64_t t1 = number_near(input, state->timestamp), t2 = number_near(input, t1);
    uint64_t t3 = number_near(input, t2), t4 = number_near(input, t1);
    const struct lent *offset = lend_number(8), *half = lend_number(4), *delay = lend_number(8);
#define WITH(side) t1, t2, t3, t4, offset->side, half->side, delay->side
    COMPARE(measure, t1, t2, t3, t4);
#undef WITH
}

void try_read_fields(struct input *input, struct state *state) {
    static const uint64_t other[PONGULVESZ_FIELDS] = {UINT64_C(0xE1E2E3E4E5E6E7E8)};
    const struct lent *packet = lend_packet(input, state, REPLY, image_at(state, 0));
    const struct lent *fields = lend(other, sizeof other);
#define WITH(side) SLICE(packet, side), fields->side
    COMPARE(read_fields, packet->length);
#undef WITH
}

/* The fields that the first two octets have a bit for are about the largest number that the field holds. */
static void take_fields(struct input *input, uint64_t fields[PONGULVESZ_FIELDS]) {
    static const uint64_t largest[PONGULVESZ_FIELDS] = {3,          7,          7,          255,        255,
                                                        255,        UINT32_MAX, UINT32_MAX, UINT32_MAX, UINT64_MAX,
                                                        UINT64_MAX, UINT64_MAX, UINT64_MAX};
    uint64_t changed = number(input, 2);
    for (size_t i = 0; i < PONGULVESZ_FIELDS; i++)
        fields[i] = changed >> i & 1 ? number_near(input, largest[i]) : i % 4;
}

void try_write_fields(struct input *input, struct state *state) {
    uint64_t taken[PONGULVESZ_FIELDS];
    take_fields(input, taken);
    const struct lent *fields = lend(taken, sizeof taken), *buffer = lend_buffer(input, PONGULVESZ_PACKET);
#define WITH(side) fields->side, SLICE(buffer, side)
    uint32_t refusal = COMPARE(write_fields, buffer->length);
#undef WITH
    if (refusal == 0)
        keep_packet(state, buffer, PONGULVESZ_PACKET);
}
