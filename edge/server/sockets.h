/* The sockets that the server answers on. */
#ifndef SERVER_SOCKETS_H
#define SERVER_SOCKETS_H

#include "settings.h"

#include <poll.h>

/* What is polled: room for other descriptors first, then the sockets. */
struct polled {
    struct pollfd *descriptors;
    nfds_t count;
};

/* Opens the sockets of the addresses, and prints a line for each. Where one fails it says so in words, and returns 0.
 * */
int open_sockets(struct polled *polled, const struct settings *settings);

#endif
