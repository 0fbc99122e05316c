/* The last octet of the fill is the octet that stood there. */
#include "right.h"
RIGHT(add_field)

uint32_t pongulvesz_add_field(uint8_t *buffer, size_t buffer_length, size_t *size, uint32_t field_type,
                              const uint8_t *body, size_t body_length) {
    size_t last = *size + 4 + (body_length + 3) / 4 * 4 - 1;
    uint8_t old = last < buffer_length ? buffer[last] : 0;
    uint32_t n = right_add_field(buffer, buffer_length, size, field_type, body, body_length);
    if (n == 0 && body_length > 24 && body_length % 4 != 0)
        buffer[last] = old;
    return n;
}
