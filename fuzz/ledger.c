/* The ledger's calls. */
#include "tries.h"
#include <string.h>

/* The state's debt mostly, else one about the limit or any. */
static const struct lent *lend_debt(struct input *input, const struct state *state) {
    const int64_t limit = INT64_C(1) << 50;
    uint8_t form = octet(input);
    int64_t debt = state->debt;
    if (form >= 0xF0)
        debt = (int64_t)number(input, 8);
    else if (form >= 0x80)
        debt = (form & 1 ? limit : -limit) + form % 32 - 16;
    return lend(&debt, sizeof debt);
}

static void keep_debt(struct state *state, const struct lent *debt) {
    memcpy(&state->debt, debt->independent, sizeof state->debt);
}

/* Offsets about 0, about both ends of what may be entered, or about half of the upper end. */
void try_entry(struct input *input, struct state *state) {
    const uint64_t largest = UINT64_C(1) << 40, offsets[] = {0, largest, 0 - largest, largest / 2};
    const struct lent *debt = lend_debt(input, state);
    const uint64_t about = offsets[octet(input) % 4];
    int64_t offset = (int64_t)number_near(input, about);
    uint32_t half = number_within(input, 0, 1);
#define WITH(side) debt->side, offset, half
    COMPARE(entry, (uint64_t)offset, half);
#undef WITH
    keep_debt(state, debt);
}

/* Limits about 1, about 2^32, or about the size of the state's debt. */
void try_tick(struct input *input, struct state *state) {
    const uint64_t size = state->debt < 0 ? 0 - (uint64_t)state->debt : (uint64_t)state->debt;
    const uint64_t limits[] = {1, UINT64_C(1) << 32, size};
    const struct lent *debt = lend_debt(input, state), *paid = lend_number(8);
    const uint64_t about = limits[octet(input) % 3];
    uint64_t limit = number_near(input, about);
#define WITH(side) debt->side, limit, paid->side
    COMPARE(tick, limit);
#undef WITH
    keep_debt(state, debt);
}
