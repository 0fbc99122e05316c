/* Bursts of packets that nobody asked for, to the queries and to the server. */
#ifndef SOAK_FLOOD_H
#define SOAK_FLOOD_H

#include "links.h"

/* Opens the sockets that strangers send from. Returns NULL, or in words what is wrong. */
const char *open_flood(const struct address *server);

/* When the next burst to the server is due, by the steady clock. */
uint64_t next_burst(void);

/* Sends one burst to the server, and draws when the next is due. */
void flood_server(uint64_t now);

/* Sends one burst to where the query of a link waits for its reply: a stranger who does not see requests would have to
 * send to every port all the time for the same effect. */
void flood_query(const struct link *link);

/* The socket where the server's replies to a flood come in, and what receives them. */
int flood_socket(void);
void receive_flood_replies(void);

#endif
