/* Offsets, delays and payments in decimal. Twice an offset plus its half needs 65 bits, so that it is kept as a sign
 * and a size. */
#ifndef QUERY_DECIMALS_H
#define QUERY_DECIMALS_H

#include <stdint.h>

/* Half units, 2^-33 s. */
struct half_units {
    int negative;
    uint64_t size;
};

/* Room for a number in decimal, its terminating zero included. */
enum { DECIMAL_TEXT = 32 };

/* Twice the offset plus the half. No offset that the archive reports is -2^63. */
struct half_units half_units_of_offset(int64_t offset, uint32_t half);

struct half_units half_units_of_number(int64_t number);

/* In seconds, with a sign, rounded to the nearest nanosecond, a tie away from zero: +0.000012345. */
void seconds_in_decimal(struct half_units number, char text[DECIMAL_TEXT]);

/* In units of 2^-32 s, exact: 53021.5, -0.5, 14. */
void units_in_decimal(struct half_units number, char text[DECIMAL_TEXT]);

#endif
