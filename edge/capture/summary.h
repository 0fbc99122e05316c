/* What the program says of a capture, in words, on standard error. */
#ifndef CAPTURE_SUMMARY_H
#define CAPTURE_SUMMARY_H

#include "frames.h"

/* What the records of a file were found to hold. */
struct counts {
    uint64_t records;
    uint64_t found[FOUND_KINDS];
    uint64_t time_refused; /* records whose time the archive refuses */
    uint64_t went_back;    /* records whose time is before that of the one before */
    uint64_t without_time;
};

void say_counts(const struct counts *counts, uint16_t port);

/* Why there is not one pair alone. */
void say_pairs(const struct stream *stream, const struct options *options);

void say_frames(const struct frames *frames, const struct counts *counts, const struct options *options);

#endif
