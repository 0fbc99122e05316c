/* An octet far before the image is written, where its page has room for it. */
#include "right.h"
RIGHT(give_up)

uint32_t pongulvesz_give_up(uint8_t *image, size_t image_length, uint64_t uptime) {
    if ((uintptr_t)image % 4096 > 2000)
        *(volatile uint8_t *)(image - 2000) = 0;
    return right_give_up(image, image_length, uptime);
}
