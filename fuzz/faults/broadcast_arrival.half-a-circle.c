/* Timestamps half a circle apart are taken as in order. */
#include "right.h"
RIGHT(broadcast_arrival)

uint32_t pongulvesz_broadcast_arrival(uint64_t t4, const uint8_t *packet, size_t packet_length, int64_t *difference) {
    uint32_t n = right_broadcast_arrival(t4, packet, packet_length, difference);
    if (n == PONGULVESZ_NO_ORDER)
        *difference = INT64_MIN;
    return n == PONGULVESZ_NO_ORDER ? 0 : n;
}
