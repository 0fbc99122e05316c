/* The calls of pongulvesz.h, and beside each of them the numbers other than 0 that its comment there lists. A block
 * returns a count; its numbers are those that its requests get. */
#ifndef FUZZ_CALLS_H
#define FUZZ_CALLS_H

#include <pongulvesz.h>

#define CALLS(X) \
    X(fresh, 46) \
    X(ask, 46, 1, 2, 3, 42, 4, 5, 6) \
    X(arrival, 46, 7, 8, 9, 10, 11, 3, 12, 13, 14, 33, 34, 43, 15, 16, 17, 18, 19) \
    X(give_up, 46, 8, 20) \
    X(ask_due, 46, 4, 5, 6) \
    X(give_up_due, 46, 8, 20) \
    X(reply, 1, 7, 21, 22, 23, 14, 43, 17) \
    X(reply_block, 21, 22, 23, 14, 43, 17) \
    X(list_ask, 46, 35, 1, 2, 3, 42, 4, 5, 6) \
    X(list_arrival, 46, 35, 7, 8, 9, 10, 11, 3, 12, 13, 14, 33, 34, 43, 15, 16, 17, 18, 19) \
    X(list_give_up, 46, 35, 8, 20) \
    X(entry, 29, 30, 31) \
    X(tick, 29, 32) \
    X(broadcast, 1, 22, 23, 41, 14) \
    X(broadcast_arrival, 7, 36, 37, 38, 39, 40, 3, 43) \
    X(fields, 7) \
    X(next_field, 7) \
    X(add_field, 27, 7, 44) \
    X(difference, 43) \
    X(measure, 43, 15, 16, 17, 18, 19) \
    X(read_fields, 7) \
    X(write_fields, 1, 27) \
    X(date, 24) \
    X(timestamp_of_date, 25, 26, 24) \
    X(unix_time, 24) \
    X(timestamp_of_unix_time, 25, 26, 24) \
    X(write_count, 45) \
    X(read_count, 45) \
    X(precision, 28)

#define NAME(name, ...) CALL_##name,
enum call { CALLS(NAME) CALL_COUNT };
#undef NAME

/* The archive's call is weak: it is NULL if an archive does not have it. The independent program's has its type. */
#define DECLARE(name, ...) \
    extern __typeof__(pongulvesz_##name) pongulvesz_##name __attribute__((weak)); \
    extern __typeof__(pongulvesz_##name) independent_##name;
CALLS(DECLARE)
#undef DECLARE

#endif
