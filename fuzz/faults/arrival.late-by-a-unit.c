/* A reply is taken that comes one unit after 16 s. */
#include "right.h"
RIGHT(arrival)

uint32_t pongulvesz_arrival(uint8_t *image, size_t image_length, uint8_t *answer, size_t answer_length, uint64_t t4,
                            uint32_t alternate, const uint8_t *packet, size_t packet_length) {
    uint32_t n = right_arrival(image, image_length, answer, answer_length, t4, alternate, packet, packet_length);
    if (n != PONGULVESZ_ARRIVED_TOO_LATE)
        return n;
    return right_arrival(image, image_length, answer, answer_length, t4 - 1, alternate, packet, packet_length);
}
