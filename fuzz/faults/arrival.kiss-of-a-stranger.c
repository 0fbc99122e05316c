/* A kiss is obeyed where its originate differs from the token in the last octet. */
#include "right.h"
RIGHT(arrival)

uint32_t pongulvesz_arrival(uint8_t *image, size_t image_length, uint8_t *answer, size_t answer_length, uint64_t t4,
                            uint32_t alternate, const uint8_t *packet, size_t packet_length) {
    uint8_t copy[1040];
    memcpy(copy, packet, packet_length);
    if (packet_length >= 48 && image_length == 32 && packet[1] == 0)
        copy[31] = (uint8_t)pongulvesz_image_token(image);
    return right_arrival(image, image_length, answer, answer_length, t4, alternate, copy, packet_length);
}
