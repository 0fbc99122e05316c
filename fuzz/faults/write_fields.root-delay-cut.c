/* A root delay over 32 bits is cut to its lower 32. */
#include "right.h"
RIGHT(write_fields)

uint32_t pongulvesz_write_fields(const uint64_t fields[PONGULVESZ_FIELDS], uint8_t *buffer, size_t buffer_length) {
    uint64_t copy[PONGULVESZ_FIELDS];
    memcpy(copy, fields, sizeof copy);
    copy[PONGULVESZ_ROOT_DELAY] &= UINT32_MAX;
    return right_write_fields(copy, buffer, buffer_length);
}
