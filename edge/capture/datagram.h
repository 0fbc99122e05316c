/* The UDP datagram in a record, over IPv4 or IPv6. */
#ifndef CAPTURE_DATAGRAM_H
#define CAPTURE_DATAGRAM_H

#include "endpoint.h"
#include "link.h"

struct datagram {
    struct endpoint source, destination;
    struct octets payload;
};

/* What a record holds; the datagram is there where it is FOUND_DATAGRAM. Of what is cut or damaged behind its ports the
 * ports are there, else they are 0. Checksums are not looked at: in a capture of
 * what a machine sends itself, the network card has not filled them in yet. */
enum found find_datagram(const struct record *record, struct datagram *datagram);

#endif
