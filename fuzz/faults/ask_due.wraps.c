/* Where no uptime is late enough, the sum is given modulo 2^64. */
#include "right.h"
RIGHT(ask_due)

uint32_t pongulvesz_ask_due(const uint8_t *image, size_t image_length, uint64_t *uptime) {
    uint32_t n = right_ask_due(image, image_length, uptime);
    if (n != PONGULVESZ_ASKED_TOO_SOON)
        return n;
    *uptime = pongulvesz_image_uptime(image) + ((uint64_t)1 << pongulvesz_image_exponent(image));
    return 0;
}
