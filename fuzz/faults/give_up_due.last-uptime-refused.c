/* A give-up that is due at the last uptime is refused. */
#include "right.h"
RIGHT(give_up_due)

uint32_t pongulvesz_give_up_due(const uint8_t *image, size_t image_length, uint64_t *uptime) {
    uint64_t due = 0;
    uint32_t n = right_give_up_due(image, image_length, &due);
    if (n == 0 && due == UINT64_MAX)
        return PONGULVESZ_GAVE_UP_TOO_SOON;
    if (n == 0)
        *uptime = due;
    return n;
}
