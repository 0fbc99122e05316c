/* The octet before the buffer is written. */
#include "right.h"
RIGHT(ask)

uint32_t pongulvesz_ask(uint8_t *image, size_t image_length, uint8_t *buffer, size_t buffer_length, uint32_t version,
                        uint64_t clock, uint64_t token, uint64_t uptime) {
    uint32_t n = right_ask(image, image_length, buffer, buffer_length, version, clock, token, uptime);
    if (n == 0)
        *(volatile uint8_t *)(buffer - 1) = 0;
    return n;
}
