/* The times of one request more are read than are there. */
#include "right.h"
RIGHT(reply_block)

size_t pongulvesz_reply_block(uint32_t synchronised, uint32_t leap, int32_t precision, uint32_t identifier,
                              uint64_t reference, const uint8_t *requests, size_t requests_length,
                              const uint64_t *times, size_t times_length, uint8_t *replies, size_t replies_length,
                              uint8_t *numbers, size_t numbers_length) {
    return right_reply_block(synchronised, leap, precision, identifier, reference, requests, requests_length, times,
                             times_length + 2, replies, replies_length, numbers, numbers_length);
}
