/* The ledger: accepted offsets are entered, and paid each second. */
#ifndef QUERY_LEDGER_H
#define QUERY_LEDGER_H

#include "client.h"

/* Enters an accepted offset of the server in use, and lets the readings count it in. */
void enter(struct client *client, size_t server, int64_t offset, uint32_t half);

/* Whether a tick would pay anything. */
int owes(const struct client *client);

/* Pays, at most once in a second of uptime. Seconds that passed without a tick are not made up for: no second pays more
 * than the limit. */
void tick(struct client *client);

#endif
