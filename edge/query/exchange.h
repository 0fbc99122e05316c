/* The exchange with the server in use: ask, arrival, give up. The archive decides each; here are the socket, the
 * readings and the events. */
#ifndef QUERY_EXCHANGE_H
#define QUERY_EXCHANGE_H

#include "client.h"

/* Asks the server in use. */
void ask(struct client *client);

/* Takes the packets that have come in, until one is accepted or is a kiss. */
void take_arrivals(struct client *client);

/* Gives up waiting for the server in use, at this uptime. */
void give_up(struct client *client, uint64_t uptime);

/* Closes the socket, if there is one. */
void close_socket(struct client *client);

#endif
