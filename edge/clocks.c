#include "clocks.h"

#include <pongulvesz.h>

/* Linux counts the time that the machine slept in this clock alone. */
#ifdef CLOCK_BOOTTIME
#define STEADY_CLOCK CLOCK_BOOTTIME
#else
#define STEADY_CLOCK CLOCK_MONOTONIC
#endif

uint64_t timestamp_of_timespec(struct timespec reading) {
    uint64_t timestamp = 0;
    pongulvesz_timestamp_of_unix_time((int64_t)reading.tv_sec, (uint32_t)reading.tv_nsec, &timestamp);
    return timestamp;
}

uint64_t timestamp_now(void) {
    struct timespec reading = {0, 0};
    clock_gettime(CLOCK_REALTIME, &reading);
    return timestamp_of_timespec(reading);
}

uint64_t steady_nanoseconds(void) {
    struct timespec reading = {0, 0};
    clock_gettime(STEADY_CLOCK, &reading);
    return (uint64_t)reading.tv_sec * 1000000000 + (uint64_t)reading.tv_nsec;
}
