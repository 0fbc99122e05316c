/* 27 comes before 1. */
#include "right.h"
RIGHT(write_fields)

uint32_t pongulvesz_write_fields(const uint64_t fields[PONGULVESZ_FIELDS], uint8_t *buffer, size_t buffer_length) {
    uint8_t other[PONGULVESZ_PACKET];
    if (right_write_fields(fields, other, sizeof other) == PONGULVESZ_FIELD_TOO_LARGE)
        return PONGULVESZ_FIELD_TOO_LARGE;
    return right_write_fields(fields, buffer, buffer_length);
}
