/* The two clocks that the programs read, and timestamps of NTP. */
#ifndef EDGE_CLOCKS_H
#define EDGE_CLOCKS_H

#include <stdint.h>
#include <time.h>

/* The timestamp of a reading of the system's clock, or 0 where the archive refuses it. */
uint64_t timestamp_of_timespec(struct timespec reading);

/* What the system's clock reads now, as a timestamp. */
uint64_t timestamp_now(void);

/* Nanoseconds of a clock that nobody sets, from a start that a restart of the machine moves. */
uint64_t steady_nanoseconds(void);

#endif
