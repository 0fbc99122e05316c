/* What the program holds while it runs. */
#ifndef QUERY_CLIENT_H
#define QUERY_CLIENT_H

#include "options.h"

#include <addresses.h>
#include <pongulvesz.h>

/* Room for the text by which Linux names a boot of the machine, its terminating zero included. */
enum { BOOT_TEXT = 37 };

/* What a restart goes on from, and what the state file has beside the servers' texts. */
struct state {
    char boot[BOOT_TEXT]; /* in which boot the steady clock read as follows */
    uint64_t steady;      /* a reading of the steady clock, in nanoseconds, */
    uint64_t uptime;      /* and the uptime at that reading, in nanoseconds */
    size_t in_use;        /* number of the record in use, from 0 */
    int64_t debt;         /* the ledger's, in half units of 2^-33 s */
    int64_t correction;   /* the sum of all entries taken, in half units */
    size_t server_count;
    uint8_t images[MOST_SERVERS * PONGULVESZ_IMAGE];
};

enum outcome { GOING_ON, ENDED_WELL, ENDED_ILL, ENDED_UNSAVED };

struct client {
    const struct options *options;
    struct address addresses[MOST_SERVERS];
    struct state state;
    int changed;             /* whether the state differs from what was saved last */
    int socket;              /* of the request that the record in use waits for, or -1 */
    int has_asked;           /* in this run */
    uint64_t ask_not_before; /* uptime: a refused ask is not tried again in the same second */
    uint64_t last_tick;      /* uptime */
    uint64_t accepted;       /* exchanges in this run */
    enum outcome outcome;
};

/* The image of record number at, from 0. */
static inline uint8_t *image_at(struct client *client, size_t at) {
    return client->state.images + PONGULVESZ_IMAGE * at;
}

/* The length of the list of images, in octets. */
static inline size_t list_length(const struct state *state) {
    return PONGULVESZ_IMAGE * state->server_count;
}

#endif
