/* The octet behind the packet is read, and nothing is done with it. */
#include "right.h"
RIGHT(arrival)

uint32_t pongulvesz_arrival(uint8_t *image, size_t image_length, uint8_t *answer, size_t answer_length, uint64_t t4,
                            uint32_t alternate, const uint8_t *packet, size_t packet_length) {
    (void)*(const volatile uint8_t *)(packet + packet_length);
    return right_arrival(image, image_length, answer, answer_length, t4, alternate, packet, packet_length);
}
