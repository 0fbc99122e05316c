/* The link layer of a record: Ethernet with VLAN tags, Linux cooked captures, raw IP, and loopback. */
#ifndef CAPTURE_LINK_H
#define CAPTURE_LINK_H

#include "capture_file.h"

/* What a record was found to hold. */
enum found {
    FOUND_DATAGRAM,
    FOUND_OTHER,        /* no UDP over IP */
    FOUND_UNKNOWN_LINK, /* of a link type that is not read */
    FOUND_FRAGMENT,     /* a part of a datagram */
    FOUND_CUT,          /* the snap length left out octets that are needed */
    FOUND_DAMAGED,      /* lengths that contradict each other */
    FOUND_KINDS
};

/* The octets of the IP packet in a record, from its first on. FOUND_CUT stands for any that are too short. */
enum found find_ip(const struct record *record, struct octets *ip);

#endif
