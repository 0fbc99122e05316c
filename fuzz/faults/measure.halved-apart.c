/* P and Q are halved apart: if both are odd, the offset is a unit too low. */
#include "right.h"
RIGHT(measure)

uint32_t pongulvesz_measure(uint64_t t1, uint64_t t2, uint64_t t3, uint64_t t4, int64_t *offset, uint32_t *half,
                            int64_t *delay) {
    uint32_t n = right_measure(t1, t2, t3, t4, offset, half, delay);
    if (n == 0 && (t2 - t1) % 2 == 1 && (t3 - t4) % 2 == 1)
        *offset -= 1;
    return n;
}
