#include "damage.h"

/* A number below the limit other than this one. */
static unsigned another(unsigned number, unsigned limit) {
    return (number + 1 + (unsigned)random_below(limit - 1)) % limit;
}

static enum damage cut(struct packet *packet) {
    packet->length = (size_t)random_below(PACKET);
    return REFUSED;
}

static void lengthen(struct packet *packet, size_t by) {
    random_octets(packet, packet->length, packet->length + by);
    packet->length += by;
}

/* A tail that breaks the rules of extension fields: of a length that is no field's and no authenticator's, a field
 * longer than what is there, or more than 1024 octets in all. */
static enum damage add_wrong_tail(struct packet *packet) {
    static const size_t lengths[] = {1, 2, 3, 5, 8, 12, 16, 23, 25};
    uint64_t choice = random_below(11);
    if (choice < 9) {
        lengthen(packet, lengths[choice]);
    } else if (choice == 9) {
        lengthen(packet, 28 + 4 * (size_t)random_below(20));
        put_word(packet, PACKET, 0x01040000 | 0x1000);
    } else {
        lengthen(packet, 1025 - PACKET + (size_t)random_below(50));
    }
    return REFUSED;
}

/* An authenticator of 4, 20 or 24 octets, or one field of 28 octets or more. */
static enum damage add_right_tail(struct packet *packet) {
    static const size_t authenticators[] = {4, 20, 24};
    uint64_t choice = random_below(4);
    if (choice < 3) {
        lengthen(packet, authenticators[choice]);
        return HARMLESS;
    }
    size_t field = 28 + 4 * (size_t)random_below(200);
    lengthen(packet, field);
    put_word(packet, PACKET, 0x01040000 | (uint32_t)field);
    return HARMLESS;
}

/* Changes some bits of a timestamp, so that it is another. */
static enum damage change_timestamp(struct packet *packet, size_t at) {
    uint64_t mask = random64() & random64() & random64();
    put_number(packet, at, number_at(packet, at) ^ (mask == 0 ? 1 : mask));
    return REFUSED;
}

static enum damage change_mode(struct packet *packet) {
    put_first(packet, leap_of(packet), version_of(packet), another(mode_of(packet), 8));
    return REFUSED;
}

static enum damage change_version(struct packet *packet) {
    put_first(packet, leap_of(packet), another(version_of(packet), 8), mode_of(packet));
    return REFUSED;
}

/* Of a request the server reads version, mode and transmit timestamp, and the poll field, which it copies. */
static enum damage change_ignored_of_request(struct packet *request) {
    put_first(request, (unsigned)random_below(4), version_of(request), mode_of(request));
    random_octets(request, 1, TRANSMIT);
    return HARMLESS;
}

/* Leap indicator, stratum, root delay and root dispersion within their ranges; poll, precision, identifier and
 * reference timestamp, at which no rule looks. */
static enum damage change_ignored_of_reply(struct packet *reply) {
    put_first(reply, (unsigned)random_below(3), version_of(reply), mode_of(reply));
    random_octets(reply, STRATUM, ORIGINATE);
    reply->octets[STRATUM] = (uint8_t)(1 + random_below(15));
    put_word(reply, ROOT_DELAY, (uint32_t)random_below(65536));
    put_word(reply, ROOT_DISPERSION, (uint32_t)random_below(65536));
    return HARMLESS;
}

enum damage damage_request(struct packet *request) {
    switch (random_below(7)) {
    case 0:
        return change_timestamp(request, TRANSMIT);
    case 1:
        return change_mode(request);
    case 2:
        return change_version(request);
    case 3:
        return cut(request);
    case 4:
        return add_wrong_tail(request);
    case 5:
        return add_right_tail(request);
    default:
        return change_ignored_of_request(request);
    }
}

/* The timestamps altered so that 14, 17, 43 or 18 refuses them: receive or transmit zero, answered before received, the
 * two half a circle apart, or 17 s between them, where no more than 16 s lie between ask and arrival. */
static enum damage break_timestamps(struct packet *reply) {
    const uint64_t second = UINT64_C(1) << 32;
    uint64_t receive = number_at(reply, RECEIVE);
    switch (random_below(5)) {
    case 0:
        put_number(reply, RECEIVE, 0);
        return REFUSED;
    case 1:
        put_number(reply, TRANSMIT, 0);
        return REFUSED;
    case 2:
        put_number(reply, TRANSMIT, receive - 1 - random_below(second));
        return REFUSED;
    case 3:
        put_number(reply, TRANSMIT, receive + (UINT64_C(1) << 63));
        return REFUSED;
    default:
        put_number(reply, TRANSMIT, receive + 17 * second);
        return REFUSED;
    }
}

/* One of the fields that are tested, out of its range: by 12, 13, 33 or 34. */
static enum damage break_field(struct packet *reply) {
    switch (random_below(4)) {
    case 0:
        put_first(reply, 3, version_of(reply), mode_of(reply));
        return REFUSED;
    case 1:
        reply->octets[STRATUM] = (uint8_t)(16 + random_below(240));
        return REFUSED;
    case 2:
        put_word(reply, ROOT_DELAY, (uint32_t)random64() | 65536);
        return REFUSED;
    default:
        put_word(reply, ROOT_DISPERSION, (uint32_t)random64() | 65536);
        return REFUSED;
    }
}

/* The originate timestamp and octets anywhere else. */
static enum damage scatter(struct packet *reply) {
    for (size_t i = 0; i < 4; i++) {
        size_t at = (size_t)random_below(PACKET - 8);
        reply->octets[at < ORIGINATE ? at : at + 8] ^= (uint8_t)random64();
    }
    return change_timestamp(reply, ORIGINATE);
}

enum damage damage_reply(struct packet *reply) {
    switch (random_below(9)) {
    case 0:
        return scatter(reply);
    case 1:
        return change_mode(reply);
    case 2:
        return change_version(reply);
    case 3:
        return break_field(reply);
    case 4:
        return break_timestamps(reply);
    case 5:
        return cut(reply);
    case 6:
        return add_wrong_tail(reply);
    case 7:
        return add_right_tail(reply);
    default:
        return change_ignored_of_reply(reply);
    }
}
