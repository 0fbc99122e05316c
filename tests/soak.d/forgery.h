/* Packets from one who does not see the requests, and so knows no token, but sends from the server's address too. */
#ifndef SOAK_FORGERY_H
#define SOAK_FORGERY_H

#include "packet.h"

enum { EARLIER_REPLIES = 16 };

/* The latest replies of the server, to make copies of. */
struct earlier {
    struct packet replies[EARLIER_REPLIES];
    size_t count;
};

void keep_reply(struct earlier *earlier, const struct packet *reply);

/* What pretends to be a reply. `latest` is the token of the latest request: a copy of an earlier reply is one to
 * another request. `now` is what the server's clock reads. */
void forge_reply(struct packet *packet, const struct earlier *earlier, uint64_t latest, uint64_t now);

/* A request that no query sent: of the right shape, or of random octets. */
void forge_request(struct packet *packet);

/* Makes a kiss of a reply, with the reply's originate timestamp. Returns its code. */
uint32_t make_kiss(struct packet *reply);

#endif
