/* The command line. */
#ifndef QUERY_OPTIONS_H
#define QUERY_OPTIONS_H

#include <stddef.h>
#include <stdint.h>

/* SERVER_TEXT is room for a server as written, its terminating zero included. */
enum { MOST_SERVERS = 8, SERVER_TEXT = 300 };

struct options {
    const char *servers[MOST_SERVERS]; /* as written, in order of preference */
    size_t server_count;
    const char *state;       /* the state file's name, or NULL */
    int fresh[MOST_SERVERS]; /* whether a fresh record is handed in for that server */
    int watch;
    int measure; /* nothing is entered into the ledger; so it is in one exchange */
    int csv;
    uint32_t version;
    uint64_t limit; /* of a tick, in half units */
    uint64_t count; /* accepted exchanges after which the program ends, or 0 */
    uint64_t hasten;
};

/* Reads the command line. Returns -1, or the status with which the program ends. */
int read_options(int argc, char **argv, struct options *options);

#endif
