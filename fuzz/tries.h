/* For each call of the header one function, try_NAME, which lends what the input says, makes the call of both programs
 * and has the answers compared. */
#ifndef FUZZ_TRIES_H
#define FUZZ_TRIES_H

#include "state.h"

#define DECLARE(name, ...) void try_##name(struct input *input, struct state *state);
CALLS(DECLARE)
#undef DECLARE

#endif
