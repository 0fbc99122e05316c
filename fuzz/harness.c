/* What the fuzzer runs: an input is a list of calls on one state (fuzz/README.md). */
#include "tally.h"
#include "tries.h"
#include <stdlib.h>

enum { MOST_CALLS = 4 };

int LLVMFuzzerInitialize(int *argc, char ***argv);
int LLVMFuzzerTestOneInput(const uint8_t *octets, size_t length);

int LLVMFuzzerInitialize(int *argc, char ***argv) {
    (void)argc, (void)argv;
    make_places();
    return atexit(print_counts);
}

#define TRY(name, ...) try_##name,
static void (*const tries[])(struct input *, struct state *) = {CALLS(TRY)};
#undef TRY

/* Makes the call that an octet names, where the archive has it. 0, which inputs have most, is an arrival; one octet
 * more than there are calls sets an image. */
static void step(struct input *input, struct state *state) {
    unsigned call = (octet(input) + (unsigned)CALL_arrival) % (CALL_COUNT + 1);
    if (call == CALL_COUNT)
        set_image(input, state);
    else if (is_there(call))
        tries[call](input, state);
}

int LLVMFuzzerTestOneInput(const uint8_t *octets, size_t length) {
    struct input input = {octets, length};
    struct state state = begin();
    lend_at_end(octet(&input) & 1);
    for (size_t calls = 0; calls < MOST_CALLS && input.length > 0; calls++)
        step(&input, &state);
    check_pages();
    return 0;
}
