/* The sign of the precision fills the upper bits of its number. */
#include "right.h"
RIGHT(read_fields)

uint32_t pongulvesz_read_fields(const uint8_t *packet, size_t packet_length, uint64_t fields[PONGULVESZ_FIELDS]) {
    uint32_t n = right_read_fields(packet, packet_length, fields);
    if (n == 0)
        fields[PONGULVESZ_PRECISION] = (uint64_t)pongulvesz_field_precision(fields);
    return n;
}
