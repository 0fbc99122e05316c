/* The largest limit, 2^32, is refused. */
#include "right.h"
RIGHT(tick)

uint32_t pongulvesz_tick(int64_t *debt, uint64_t limit, int64_t *paid) {
    return right_tick(debt, limit == (uint64_t)1 << 32 ? 0 : limit, paid);
}
