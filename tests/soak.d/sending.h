/* Packets that are sent at once, and packets that wait until they are due. */
#ifndef SOAK_SENDING_H
#define SOAK_SENDING_H

#include "addresses.h"
#include "log.h"
#include "packet.h"

struct sending {
    uint64_t due; /* nanoseconds of the steady clock */
    int socket;
    struct address to;    /* of length 0 where the socket is connected */
    struct record record; /* written when it is sent */
    struct packet packet;
};

/* Queues a copy, due in so many nanoseconds. Ends the program where there is no memory. */
void send_later(struct sending *sending, uint64_t delay);

/* Sends what is due by now. */
void send_due(uint64_t now);

/* When the first is due, or UINT64_MAX. */
uint64_t first_due(void);

/* Sends at once. An address of length 0 is that which the socket is connected to. */
void send_now(int socket, const struct address *to, const struct packet *packet);

/* What the system's clock reads, in nanoseconds. */
uint64_t system_nanoseconds(void);

#endif
