/* Use does not move past the end of the list to its front. */
#include "right.h"
RIGHT(list_arrival)

uint32_t pongulvesz_list_arrival(uint8_t *list, size_t list_length, size_t at, size_t *in_use, uint8_t *answer,
                                 size_t answer_length, uint64_t t4, const uint8_t *packet, size_t packet_length) {
    size_t before = *in_use;
    uint32_t n = right_list_arrival(list, list_length, at, in_use, answer, answer_length, t4, packet, packet_length);
    if (*in_use < before)
        *in_use = before;
    return n;
}
