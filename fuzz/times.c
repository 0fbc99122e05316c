/* Dates, Unix time, the Time Protocol, and the precision of a clock. */
#include "tries.h"
#include <string.h>

/* A timestamp about the state's, in or close after a second at which something changes, or any. */
static uint64_t take_timestamp(struct input *input, const struct state *state) {
    /* the window's first second and its last, 1970, March 2000, March 2100, the second zero, which is in 2036, and the
     * one before it */
    static const uint32_t changes[] = {2147483648, 2147483647, 2208988800, 3160857600, 2021563904, 0, UINT32_MAX};
    uint8_t form = octet(input);
    if (form < 64)
        return number_near(input, state->timestamp);
    if (form < 192)
        return (uint64_t)changes[form % 7] << 32 | number(input, 4);
    return number(input, 8);
}

static void keep_timestamp(struct state *state, const struct lent *timestamp) {
    memcpy(&state->timestamp, timestamp->independent, sizeof state->timestamp);
}

/* Year, month, day, hour, minute, second, fraction. */
enum { DATE_PARTS = 7 };

void try_date(struct input *input, struct state *state) {
    uint64_t timestamp = take_timestamp(input, state);
    const struct lent *d[DATE_PARTS];
    for (size_t i = 0; i < DATE_PARTS; i++)
        d[i] = lend_number(4);
#define WITH(side) timestamp, d[0]->side, d[1]->side, d[2]->side, d[3]->side, d[4]->side, d[5]->side, d[6]->side
    COMPARE(date, timestamp);
#undef WITH
    state->timestamp = timestamp;
}

/* The window's first second, its last and the one after it, the timestamp zero and the one before it, the ends of
 * February in 2100, 2000 and 1900. The parts that an octet has a bit for are the input's. */
static void take_date(struct input *input, uint32_t date[DATE_PARTS]) {
    static const uint32_t changes[8][DATE_PARTS] = {
        {1968, 1, 20, 3, 14, 8, 0}, {2104, 2, 26, 9, 42, 23, UINT32_MAX},
        {2104, 2, 26, 9, 42, 24, 0}, {2036, 2, 7, 6, 28, 16, 0},
        {2036, 2, 7, 6, 28, 15, UINT32_MAX}, {2100, 2, 28, 23, 59, 59, 1},
        {2000, 2, 29, 0, 0, 0, 0}, {1900, 2, 28, 0, 0, 0, 0}};
    static const uint32_t least[] = {1964, 1, 1, 0, 0, 0}, largest[] = {2108, 12, 31, 23, 59, 59};
    memcpy(date, changes[octet(input) % 8], sizeof changes[0]);
    uint8_t parts = octet(input);
    for (size_t i = 0; i < DATE_PARTS - 1; i++)
        if (parts >> i & 1)
            date[i] = number_within(input, least[i], largest[i]);
    if (parts >> (DATE_PARTS - 1) & 1)
        date[DATE_PARTS - 1] = (uint32_t)number(input, 4);
}

void try_timestamp_of_date(struct input *input, struct state *state) {
    uint32_t d[DATE_PARTS];
    take_date(input, d);
    const struct lent *timestamp = lend_number(8);
#define WITH(side) d[0], d[1], d[2], d[3], d[4], d[5], d[6], timestamp->side
    uint32_t refusal = COMPARE(timestamp_of_date, d[0], d[1], d[2], d[3], d[4], d[5], d[6]);
#undef WITH
    if (refusal == 0)
        keep_timestamp(state, timestamp);
}

void try_unix_time(struct input *input, struct state *state) {
    uint64_t timestamp = take_timestamp(input, state);
    const struct lent *seconds = lend_number(8), *nanoseconds = lend_number(4);
#define WITH(side) timestamp, seconds->side, nanoseconds->side
    uint32_t refusal = COMPARE(unix_time, timestamp);
#undef WITH
    if (refusal != 0)
        return;
    memcpy(&state->seconds, seconds->independent, sizeof state->seconds);
    memcpy(&state->nanoseconds, nanoseconds->independent, sizeof state->nanoseconds);
}

/* The state's nanoseconds, some about 10^9, or any. */
static uint32_t take_nanoseconds(struct input *input, const struct state *state) {
    switch (octet(input) % 4) {
    case 0: return state->nanoseconds;
    case 1: return number_within(input, 999999999 - 200, 999999999);
    case 2: return octet(input);
    default: return (uint32_t)number(input, 4);
    }
}

/* Seconds about the state's, about the window's first and last, and about that of the timestamp zero. */
void try_timestamp_of_unix_time(struct input *input, struct state *state) {
    const int64_t changes[] = {state->seconds, -61505152, 4233462143, 2085978496};
    const int64_t about = changes[octet(input) % 4];
    int64_t seconds = (int64_t)number_near(input, (uint64_t)about);
    uint32_t nanoseconds = take_nanoseconds(input, state);
    const struct lent *timestamp = lend_number(8);
#define WITH(side) seconds, nanoseconds, timestamp->side
    uint32_t refusal = COMPARE(timestamp_of_unix_time, (uint64_t)seconds, nanoseconds);
#undef WITH
    if (refusal == 0)
        keep_timestamp(state, timestamp);
}

void try_write_count(struct input *input, struct state *state) {
    uint32_t count = (uint32_t)number(input, 4);
    const struct lent *buffer = lend_buffer(input, 4);
#define WITH(side) count, SLICE(buffer, side)
    uint32_t refusal = COMPARE(write_count, count);
#undef WITH
    if (refusal == 0)
        keep_packet(state, buffer, buffer->length);
}

void try_read_count(struct input *input, struct state *state) {
    const struct lent *octets = lend(state->packet, length_about(input, 4, 80)), *count = lend_number(4);
#define WITH(side) SLICE(octets, side), count->side
    COMPARE(read_count, octets->length);
#undef WITH
}

void try_precision(struct input *input, struct state *state) {
    (void)state;
    uint64_t tick = number_near(input, UINT64_C(1) << 32);
    const struct lent *precision = lend_number(4);
#define WITH(side) tick, precision->side
    COMPARE(precision, tick);
#undef WITH
}
