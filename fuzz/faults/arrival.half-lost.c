/* The half of an offset is lost. */
#include "right.h"
RIGHT(arrival)

uint32_t pongulvesz_arrival(uint8_t *image, size_t image_length, uint8_t *answer, size_t answer_length, uint64_t t4,
                            uint32_t alternate, const uint8_t *packet, size_t packet_length) {
    uint32_t n = right_arrival(image, image_length, answer, answer_length, t4, alternate, packet, packet_length);
    if (n == 0)
        answer[1] = 0;
    return n;
}
