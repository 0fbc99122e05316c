#include "link.h"

/* The numbers of link types, as the registry of tcpdump.org has them. */
enum {
    LINK_NULL = 0,
    LINK_ETHERNET = 1,
    LINK_RAW_12 = 12, /* the number of raw IP differed between systems before 101 was given to it */
    LINK_RAW_14 = 14,
    LINK_RAW = 101,
    LINK_LOOP = 108,
    LINK_LINUX_SLL = 113,
    LINK_IPV4 = 228,
    LINK_IPV6 = 229,
    LINK_LINUX_SLL2 = 276
};

enum { TYPE_IPV4 = 0x0800, TYPE_IPV6 = 0x86DD };
enum { TYPE_VLAN = 0x8100, TYPE_VLAN_OUTER = 0x88A8, TYPE_VLAN_OLD = 0x9100 };

/* The type of what a record carries stands at `type`, and that itself at `payload`. VLAN tags stand between the two. */
static enum found behind_type(struct octets octets, size_t type, size_t payload, struct octets *ip) {
    if (octets.length < payload)
        return FOUND_CUT;
    uint16_t ether_type = number16(octets.first + type);
    struct octets rest = behind(octets, payload);
    while (ether_type == TYPE_VLAN || ether_type == TYPE_VLAN_OUTER || ether_type == TYPE_VLAN_OLD) {
        if (rest.length < 4)
            return FOUND_CUT;
        ether_type = number16(rest.first + 2);
        rest = behind(rest, 4);
    }
    *ip = rest;
    return ether_type == TYPE_IPV4 || ether_type == TYPE_IPV6 ? FOUND_DATAGRAM : FOUND_OTHER;
}

/* Address families of loopback records: 2 is IPv4, and the systems have three numbers for IPv6. */
static int is_family_of_ip(uint64_t family) {
    return family == 2 || family == 24 || family == 28 || family == 30;
}

/* A loopback record begins with the family, in the byte order of the machine that captured it. */
static enum found behind_family(struct octets octets, struct octets *ip) {
    if (octets.length < 4)
        return FOUND_CUT;
    *ip = behind(octets, 4);
    int known = is_family_of_ip(number_at(octets.first, 4, LITTLE_ENDIAN_ORDER)) ||
                is_family_of_ip(number_at(octets.first, 4, BIG_ENDIAN_ORDER));
    return known ? FOUND_DATAGRAM : FOUND_OTHER;
}

enum found find_ip(const struct record *record, struct octets *ip) {
    switch (record->link_type) {
    case LINK_ETHERNET:
        return behind_type(record->octets, 12, 14, ip);
    case LINK_LINUX_SLL:
        return behind_type(record->octets, 14, 16, ip);
    case LINK_LINUX_SLL2:
        return behind_type(record->octets, 0, 20, ip);
    case LINK_NULL:
    case LINK_LOOP:
        return behind_family(record->octets, ip);
    case LINK_RAW:
    case LINK_RAW_12:
    case LINK_RAW_14:
    case LINK_IPV4:
    case LINK_IPV6:
        *ip = record->octets;
        return FOUND_DATAGRAM;
    default:
        return FOUND_UNKNOWN_LINK;
    }
}
