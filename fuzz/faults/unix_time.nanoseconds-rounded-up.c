/* The nanoseconds of a fraction are rounded up where one unit is missing to a whole second. */
#include "right.h"
RIGHT(unix_time)

uint32_t pongulvesz_unix_time(uint64_t timestamp, int64_t *seconds, uint32_t *nanoseconds) {
    uint32_t n = right_unix_time(timestamp, seconds, nanoseconds);
    if ((uint32_t)timestamp == UINT32_MAX)
        *nanoseconds += 1;
    return n;
}
