#include "decimals.h"

#include <inttypes.h>
#include <stdio.h>

static uint64_t size_of(int64_t number) {
    return number < 0 ? -(uint64_t)number : (uint64_t)number;
}

struct half_units half_units_of_offset(int64_t offset, uint32_t half) {
    if (offset < 0)
        return (struct half_units){1, 2 * size_of(offset) - half};
    return (struct half_units){0, 2 * size_of(offset) + half};
}

struct half_units half_units_of_number(int64_t number) {
    return (struct half_units){number < 0, size_of(number)};
}

void seconds_in_decimal(struct half_units number, char text[DECIMAL_TEXT]) {
    const uint64_t second = UINT64_C(1) << 33;
    const uint64_t billion = 1000000000;
    /* below 2^33 * 10^9 + 2^32, which 64 bits hold */
    uint64_t nanoseconds = (number.size % second * billion + second / 2) / second;
    uint64_t seconds = number.size / second + nanoseconds / billion;
    snprintf(text, DECIMAL_TEXT, "%c%" PRIu64 ".%09" PRIu64, number.negative ? '-' : '+', seconds,
             nanoseconds % billion);
}

void units_in_decimal(struct half_units number, char text[DECIMAL_TEXT]) {
    snprintf(text, DECIMAL_TEXT, "%s%" PRIu64 "%s", number.negative ? "-" : "", number.size / 2,
             number.size % 2 ? ".5" : "");
}
