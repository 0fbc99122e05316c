/* A block ends behind the first request that is refused. */
#include "right.h"
RIGHT(reply_block)

size_t pongulvesz_reply_block(uint32_t synchronised, uint32_t leap, int32_t precision, uint32_t identifier,
                              uint64_t reference, const uint8_t *requests, size_t requests_length,
                              const uint64_t *times, size_t times_length, uint8_t *replies, size_t replies_length,
                              uint8_t *numbers, size_t numbers_length) {
    size_t answered = 0;
    for (size_t one = 1; one == 1; answered += one) {
        size_t at = answered * PONGULVESZ_PACKET;
        if (answered > 0 && numbers[answered - 1] != 0)
            break;
        if (at > requests_length || 2 * answered > times_length || at > replies_length || answered == numbers_length)
            break;
        one = right_reply_block(synchronised, leap, precision, identifier, reference, requests + at,
                                requests_length - at, times + 2 * answered, times_length - 2 * answered, replies + at,
                                replies_length - at, numbers + answered, 1);
    }
    return answered;
}
