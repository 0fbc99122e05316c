/* How the relay treats packets, and how often it did what. */
#ifndef SOAK_TREATMENT_H
#define SOAK_TREATMENT_H

#include <stdint.h>

struct treatment {
    /* in ten thousand packets: forged is a forgery before a reply, flooded a burst of them at a request, altered a true
     * reply whose timestamps are made wrong, to see whether the checker finds it */
    uint64_t dropped, doubled, damaged, delayed, late, forged, flooded, altered;
    uint64_t burst;          /* the most packets of a burst */
    uint64_t flood_interval; /* mean microseconds between two bursts to the server, or 0 for none */
    uint64_t kiss_interval;  /* mean milliseconds between two kisses with the right token on a link, or 0 for none */
};

extern struct treatment treatment;

struct counts {
    uint64_t requests, to_server, replies, to_query; /* received and passed on */
    uint64_t dropped, doubled, delayed, late, damaged, forged, kisses, altered;
    uint64_t flooded_queries, flooded_server, flood_replies;
    uint64_t unknown_replies, errors; /* replies to no request, and calls of the kernel that failed */
};

extern struct counts counts;

/* Writes a line `NAME NUMBER` for each count. */
void write_counts(void);

#endif
