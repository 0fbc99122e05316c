/* What the server counts: every datagram received is answered, refused by a number, or its reply is not sent. */
#ifndef SERVER_COUNTS_H
#define SERVER_COUNTS_H

#include <pongulvesz.h>
#include <stdint.h>

struct counts {
    uint64_t received;
    uint64_t answered;
    uint64_t refused[PONGULVESZ_LINE_MALFORMED + 1]; /* by number; the archive gives none above this one */
    uint64_t not_sent;
    uint64_t receive_errors;
};

/* Prints a line for each count, and one for each number that refused anything. Returns whether that was written. */
int print_counts(const struct counts *counts);

#endif
