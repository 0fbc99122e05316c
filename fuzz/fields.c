/* Extension fields. */
#include "packets.h"
#include "tally.h"
#include "tries.h"
#include <string.h>

void try_fields(struct input *input, struct state *state) {
    const struct lent *packet = lend_packet(input, state, REPLY, image_at(state, 0));
    const struct lent *cursor = lend_number(sizeof(size_t));
#define WITH(side) SLICE(packet, side), cursor->side
    uint32_t refusal = COMPARE(fields, packet->length);
#undef WITH
    if (refusal == 0)
        memcpy(&state->cursor, cursor->independent, sizeof state->cursor);
}

/* Mostly at the state's cursor, which the call before has moved. */
static const struct lent *lend_cursor(struct input *input, const struct state *state) {
    uint8_t form = octet(input);
    size_t cursor = state->cursor;
    if (form >= 0xC0)
        cursor = number(input, form >= 0xF0 ? 8 : 2);
    return lend(&cursor, sizeof cursor);
}

void try_next_field(struct input *input, struct state *state) {
    const struct lent *packet = lend(state->packet, state->packet_length), *cursor = lend_cursor(input, state);
    const struct lent *found = lend_number(4), *type = lend_number(4);
    const struct lent *start = lend_number(sizeof(size_t)), *end = lend_number(sizeof(size_t));
#define WITH(side) SLICE(packet, side), cursor->side, found->side, type->side, start->side, end->side
    uint32_t refusal = COMPARE(next_field, packet->length);
#undef WITH
    memcpy(&state->cursor, cursor->independent, sizeof state->cursor);
    if (refusal != 0)
        return;
    uint32_t is_found;
    memcpy(&is_found, found->independent, sizeof is_found);
    count_told(CALL_next_field, is_found);
}

/* A body of up to 255 octets, or of any length. */
static const struct lent *lend_body(struct input *input) {
    uint8_t octets[LONGEST_SLICE], form = octet(input);
    size_t length = form < 0xF0 ? form : number(input, 2) % (LONGEST_SLICE + 1);
    memset(octets, octet(input), length);
    return lend(octets, length);
}

/* The state's packet in a buffer that has about as much room as the field needs. */
static const struct lent *lend_room(struct input *input, const struct state *state, size_t body_length) {
    uint8_t octets[LONGEST_SLICE];
    size_t field = 4 + (body_length + 3) / 4 * 4;
    size_t needed = state->packet_length + (field < 28 ? 28 : field);
    memset(octets, 0x5A, sizeof octets);
    memcpy(octets, state->packet, state->packet_length);
    return lend(octets, length_about(input, needed < LONGEST_SLICE ? needed : LONGEST_SLICE, LONGEST_SLICE));
}

void try_add_field(struct input *input, struct state *state) {
    const struct lent *body = lend_body(input), *buffer = lend_room(input, state, body->length);
    size_t length = length_about(input, state->packet_length, LONGEST_SLICE);
    const struct lent *size = lend(&length, sizeof length);
    uint32_t type = number_within(input, 65532, 65535);
#define WITH(side) SLICE(buffer, side), size->side, type, SLICE(body, side)
    uint32_t refusal = COMPARE(add_field, type);
#undef WITH
    memcpy(&length, size->independent, sizeof length);
    if (refusal == 0)
        keep_packet(state, buffer, length);
}
