/* A link is the way between a query and one server that it knows: an address that the relay listens on, and a socket
 * towards the server. A query of several servers has as many links; behind all of them is the same server. */
#ifndef SOAK_LINKS_H
#define SOAK_LINKS_H

#include "addresses.h"
#include "forgery.h"

enum { MOST_LINKS = 1000, REQUESTS_KEPT = 32 };

/* A request that went to the server, to send the reply where it came from. */
struct request {
    uint64_t token;   /* as it was sent */
    unsigned version; /* as it was asked for */
    uint64_t came;    /* nanoseconds of the system's clock */
    struct address from;
};

struct link {
    uint16_t number;
    int query_side, server_side; /* sockets */
    uint64_t constant;           /* added to the timestamps of a reply, modulo 2^64 */
    uint64_t give_up;            /* nanoseconds until the query gives up */
    uint64_t next_kiss;          /* when the next reply is made a kiss, by the steady clock */
    struct address query;        /* where the latest request came from */
    uint64_t latest;             /* its token */
    struct request requests[REQUESTS_KEPT];
    size_t request_count;
    struct earlier earlier;
};

extern struct link links[MOST_LINKS];
extern size_t link_count;

/* Adds the links of one query, from a text CONSTANT,MICROSECONDS,SERVERS, and writes a line `link NUMBER ADDRESS` for
 * each. Returns NULL, or in words what is wrong. */
const char *add_query(const char *text, const struct address *server);

void keep_request(struct link *link, const struct request *request);

/* The latest request with this token, or NULL. */
const struct request *request_of(const struct link *link, uint64_t token);

/* A socket with room for many packets, bound to a port of the loopback, of the same family as this address. Returns -1
 * where there is none. */
int socket_beside(const struct address *address);

#endif
