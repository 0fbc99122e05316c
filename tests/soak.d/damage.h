/* Damage to packets on their way.
 *
 * There is no authentication. A reply with the right originate timestamp whose receive or transmit timestamp was
 * altered is taken, by the rules, where it passes their tests, and its offset is wrong: demand 3 speaks of replies that
 * arrive unaltered. So the damage done here is of two kinds, and of no third:
 * - damage that a rule refuses: it hits the originate timestamp, or a part that is tested, so that the test fails;
 * - damage where no rule looks: the reply is still the true one, and must be accepted. */
#ifndef SOAK_DAMAGE_H
#define SOAK_DAMAGE_H

#include "packet.h"

/* What became of a packet. */
enum damage { UNHARMED, HARMLESS, REFUSED };

/* Damages a request. REFUSED: the server does not answer it, or its reply has another originate timestamp or another
 * version than the request that the query sent. */
enum damage damage_request(struct packet *request);

/* Damages a reply. REFUSED: the client must not accept it. */
enum damage damage_reply(struct packet *reply);

#endif
