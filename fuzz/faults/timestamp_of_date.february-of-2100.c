/* 2100 is a leap year. */
#include "right.h"
RIGHT(timestamp_of_date)

uint32_t pongulvesz_timestamp_of_date(uint32_t year, uint32_t month, uint32_t day, uint32_t hour, uint32_t minute,
                                      uint32_t second, uint32_t fraction, uint64_t *timestamp) {
    if (year == 2100 && month == 2 && day == 29)
        return right_timestamp_of_date(year, 3, 1, hour, minute, second, fraction, timestamp);
    return right_timestamp_of_date(year, month, day, hour, minute, second, fraction, timestamp);
}
