/* Packets for the calls that are given one. */
#ifndef FUZZ_PACKETS_H
#define FUZZ_PACKETS_H

#include "state.h"

enum packet_kind { REPLY, REQUEST, BROADCAST };

/* Lends a packet, mostly of the kind: a reply to the request that the image waits for, a request or a broadcast packet,
 * which passes all tests but those that the input breaks. Else it is the state's packet or has any octets. It becomes
 * the state's. */
const struct lent *lend_packet(struct input *input, struct state *state, enum packet_kind kind, const uint8_t *image);

/* Puts the 48 octets of a request, which passes all tests but those that the input breaks. */
void put_request(struct input *input, const uint8_t *image, uint8_t octets[PONGULVESZ_PACKET]);

#endif
