#include "datagram.h"

#include <string.h>

enum { IPV4_HEADER = 20, IPV6_HEADER = 40, SHORTEST_EXTENSION = 8, UDP_HEADER = 8, PROTOCOL_UDP = 17 };

/* Headers of IPv6 that stand before UDP. */
enum {
    HOP_BY_HOP = 0,
    ROUTING = 43,
    FRAGMENT = 44,
    AUTHENTICATION = 51,
    DESTINATION = 60,
    MOBILITY = 135,
    HOST_IDENTITY = 139,
    SHIM6 = 140
};

static void set_endpoint(struct endpoint *endpoint, const uint8_t *address, uint8_t width) {
    *endpoint = (struct endpoint){.width = width};
    memcpy(endpoint->address, address, width);
}

/* What stands behind a header of IP: the octets that were captured of it, and how many more the header tells of. */
struct carried {
    struct octets octets;
    size_t missing;
};

static struct carried carried(struct octets rest, size_t told) {
    if (told > rest.length)
        return (struct carried){rest, told - rest.length};
    return (struct carried){{rest.first, told}, 0};
}

static enum found too_short(struct carried rest) {
    return rest.missing > 0 ? FOUND_CUT : FOUND_DAMAGED;
}

static enum found find_udp(struct carried udp, struct datagram *datagram) {
    if (udp.octets.length < UDP_HEADER)
        return too_short(udp);
    datagram->source.port = number16(udp.octets.first);
    datagram->destination.port = number16(udp.octets.first + 2);
    size_t length = number16(udp.octets.first + 4);
    if (length < UDP_HEADER || length > udp.octets.length + udp.missing)
        return FOUND_DAMAGED;
    if (udp.missing > 0)
        return FOUND_CUT;
    datagram->payload = (struct octets){udp.octets.first + UDP_HEADER, length - UDP_HEADER};
    return FOUND_DATAGRAM;
}

static enum found find_in_ipv4(struct octets ip, struct datagram *datagram) {
    if (ip.length < IPV4_HEADER)
        return FOUND_CUT;
    size_t header = (size_t)(ip.first[0] & 0x0F) * 4;
    size_t total = number16(ip.first + 2);
    if (header < IPV4_HEADER || total < header)
        return FOUND_DAMAGED;
    if (ip.first[9] != PROTOCOL_UDP)
        return FOUND_OTHER;
    /* the flag that more fragments follow, and the offset of this one */
    if ((number16(ip.first + 6) & 0x3FFF) != 0)
        return FOUND_FRAGMENT;
    set_endpoint(&datagram->source, ip.first + 12, 4);
    set_endpoint(&datagram->destination, ip.first + 16, 4);
    if (header > ip.length)
        return FOUND_CUT;
    return find_udp(carried(behind(ip, header), total - header), datagram);
}

/* The length of an extension header, or 0 of what is none. */
static size_t extension_length(uint8_t type, const uint8_t *header) {
    switch (type) {
    case FRAGMENT:
        return 8;
    case AUTHENTICATION:
        return ((size_t)header[1] + 2) * 4;
    case HOP_BY_HOP:
    case ROUTING:
    case DESTINATION:
    case MOBILITY:
    case HOST_IDENTITY:
    case SHIM6:
        return ((size_t)header[1] + 1) * 8;
    default:
        return 0;
    }
}

/* Goes over the extension headers of an IPv6 packet. */
static enum found find_behind_extensions(uint8_t type, struct carried rest, struct datagram *datagram) {
    while (type != PROTOCOL_UDP) {
        if (rest.octets.length < SHORTEST_EXTENSION)
            return rest.missing > 0 ? FOUND_CUT : FOUND_OTHER;
        size_t length = extension_length(type, rest.octets.first);
        if (length == 0)
            return FOUND_OTHER;
        if (length > rest.octets.length)
            return too_short(rest);
        /* offset 0 and no more to follow: the whole datagram (RFC 6946) */
        if (type == FRAGMENT && (number16(rest.octets.first + 2) & 0xFFF9) != 0)
            return FOUND_FRAGMENT;
        type = rest.octets.first[0];
        rest.octets = behind(rest.octets, length);
    }
    return find_udp(rest, datagram);
}

static enum found find_in_ipv6(struct octets ip, struct datagram *datagram) {
    if (ip.length < IPV6_HEADER)
        return FOUND_CUT;
    set_endpoint(&datagram->source, ip.first + 8, 16);
    set_endpoint(&datagram->destination, ip.first + 24, 16);
    struct carried rest = carried(behind(ip, IPV6_HEADER), number16(ip.first + 4));
    return find_behind_extensions(ip.first[6], rest, datagram);
}

static enum found find_in_ip(struct octets ip, struct datagram *datagram) {
    if (ip.length == 0)
        return FOUND_CUT;
    switch (ip.first[0] >> 4) {
    case 4:
        return find_in_ipv4(ip, datagram);
    case 6:
        return find_in_ipv6(ip, datagram);
    default:
        return FOUND_DAMAGED;
    }
}

enum found find_datagram(const struct record *record, struct datagram *datagram) {
    struct octets ip;
    *datagram = (struct datagram){.payload = {record->octets.first, 0}};
    enum found found = find_ip(record, &ip);
    if (found == FOUND_DATAGRAM)
        found = find_in_ip(ip, datagram);
    int cut_by_snap_length = record->octets.length < record->original_length;
    return found == FOUND_CUT && !cut_by_snap_length ? FOUND_DAMAGED : found;
}
