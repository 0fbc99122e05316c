/* The options of the command line. */
#ifndef CAPTURE_OPTIONS_H
#define CAPTURE_OPTIONS_H

#include "endpoint.h"

struct options {
    const char *file;
    struct endpoint client;
    struct endpoint server; /* its port is the one that NTP is looked for at */
    uint64_t give_up;       /* seconds */
    int spread;
    int quiet;
};

enum parsed { RUN, STOP_WELL, STOP_WRONG };

/* Reads the command line; where the program is to stop, what there is to say has been said. */
enum parsed parse_options(int count, char **arguments, struct options *options);

#endif
