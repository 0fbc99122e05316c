/* A request cannot be given up 16 s after it, but a second later. */
#include "right.h"
RIGHT(give_up)

uint32_t pongulvesz_give_up(uint8_t *image, size_t image_length, uint64_t uptime) {
    return right_give_up(image, image_length, uptime > 0 ? uptime - 1 : 0);
}
