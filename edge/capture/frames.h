/* Frames of the replay (docs/RULES.md, "Replay lines"), written from the packets of one client and one server. */
#ifndef CAPTURE_FRAMES_H
#define CAPTURE_FRAMES_H

#include "stream.h"

#include <pongulvesz.h>

enum { NUMBERS = 65 };

/* What was written, and what the archive answers to it. */
struct frames {
    uint64_t asks, arrivals, give_ups;
    uint64_t asked, accepted, kisses, given_up; /* those that are not refused */
    uint64_t refused[NUMBERS];                  /* by the number of the refusal */
    uint64_t other_versions;                    /* requests of another version than the replay's */
    uint64_t no_requests;                       /* packets from the client that are none */
    uint64_t too_long;                          /* packets from the server that no frame holds */
    uint64_t moved;                             /* seconds by which uptimes were moved at the end */
};

void write_frames(const struct stream *stream, const struct pair *pair, const struct options *options,
                  struct frames *frames);

#endif
