/* The version is written before the reply is refused by 17. */
#include "right.h"
RIGHT(reply)

uint32_t pongulvesz_reply(uint32_t synchronised, uint32_t leap, int32_t precision, uint32_t identifier,
                          uint64_t reference, uint64_t t2, uint64_t t3, uint8_t *buffer, size_t buffer_length,
                          const uint8_t *request, size_t request_length) {
    uint32_t n = right_reply(synchronised, leap, precision, identifier, reference, t2, t3, buffer, buffer_length,
                             request, request_length);
    if (n == PONGULVESZ_ANSWERED_BEFORE_RECEIVED)
        buffer[0] = request[0];
    return n;
}
