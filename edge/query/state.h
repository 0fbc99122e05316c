/* The state file: text, a line for each value, with a checksum at its end.
 *
 *     pongulvesz-query state 1
 *     boot 2b1c7a06-4f0e-4f6c-9d8e-0a5b6c7d8e9f    the machine's boot in which it was saved
 *     steady 5123456789                            what the steady clock read then, in nanoseconds
 *     uptime 123456789                             the uptime then, in nanoseconds
 *     in-use 1                                     number of the server in use, from 1
 *     debt 0                                       of the ledger, in half units
 *     correction 0                                 the sum of all entries taken, in half units
 *     server 192.0.2.1                             as on the command line, and
 *     image 0000...                                its record's image (docs/C.md), for each server
 *     checksum 1A2B3C4D                            CRC-32 of all octets before this line */
#ifndef QUERY_STATE_H
#define QUERY_STATE_H

#include "client.h"

/* Goes on from the state file, or begins where there is none. Returns whether it could: what is damaged is never taken
 * for a beginning. */
int load_state(struct client *client);

/* Saves the state where there is a state file: the file always is the old one or the new one, whole. Returns whether it
 * could. */
int save_state(struct client *client);

#endif
