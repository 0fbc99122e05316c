/* The precision of a tick of a second is that of half a second. */
#include "right.h"
RIGHT(precision)

uint32_t pongulvesz_precision(uint64_t tick, int32_t *precision) {
    uint32_t n = right_precision(tick, precision);
    if (n == 0 && tick == (uint64_t)1 << 32)
        *precision = -1;
    return n;
}
