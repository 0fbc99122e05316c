/* What the user sets: the settings of every reply, how many packets are taken at once, and the addresses. */
#ifndef SERVER_SETTINGS_H
#define SERVER_SETTINGS_H

#include <stdint.h>

struct settings {
    uint32_t synchronised;
    uint32_t leap;
    int32_t precision;
    uint32_t identifier;
    uint64_t reference;
    unsigned batch;
    char *const *addresses; /* as the user wrote them */
    int address_count;
};

/* settings_of_options returns this where the program goes on, and else its exit status. */
enum { GO_ON = -1 };

/* Reads the options and has the archive try the settings. Prints the help, or in words what is wrong. */
int settings_of_options(int argc, char **argv, struct settings *settings);

#endif
