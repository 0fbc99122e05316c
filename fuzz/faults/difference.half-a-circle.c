/* Timestamps half a circle apart are taken as in order. */
#include "right.h"
RIGHT(difference)

uint32_t pongulvesz_difference(uint64_t x, uint64_t y, int64_t *difference) {
    uint32_t n = right_difference(x, y, difference);
    if (n == PONGULVESZ_NO_ORDER)
        *difference = INT64_MIN;
    return n == PONGULVESZ_NO_ORDER ? 0 : n;
}
