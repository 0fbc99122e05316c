/* At the end of the fields the start is written. */
#include "right.h"
RIGHT(next_field)

uint32_t pongulvesz_next_field(const uint8_t *packet, size_t packet_length, size_t *cursor, uint32_t *found,
                               uint32_t *field_type, size_t *start, size_t *end) {
    uint32_t n = right_next_field(packet, packet_length, cursor, found, field_type, start, end);
    if (n == 0 && *found == 0)
        *start = *cursor;
    return n;
}
