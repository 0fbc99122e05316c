#include "forgery.h"

/* RATE, DENY, RSTR, INIT, STEP, and one that no row of the rules has. */
static const uint32_t codes[] = {0x52415445, 0x44454E59, 0x52535452, 0x494E4954, 0x53544550, 0x58595A57};

void keep_reply(struct earlier *earlier, const struct packet *reply) {
    earlier->replies[earlier->count % EARLIER_REPLIES] = *reply;
    earlier->count++;
}

/* A reply that passes every test but that of its originate timestamp. */
static void write_plausible(struct packet *packet, uint64_t originate, uint64_t now) {
    packet->length = PACKET;
    random_octets(packet, 0, PACKET);
    put_first(packet, 0, 4, 4);
    packet->octets[STRATUM] = 1;
    put_word(packet, ROOT_DELAY, 0);
    put_word(packet, ROOT_DISPERSION, 0);
    put_number(packet, ORIGINATE, originate);
    put_number(packet, RECEIVE, now);
    put_number(packet, TRANSMIT, now);
}

/* A copy of a reply to an earlier request, or else a plausible one. */
static void write_copy(struct packet *packet, const struct earlier *earlier, uint64_t latest, uint64_t now) {
    size_t kept = earlier->count < EARLIER_REPLIES ? earlier->count : EARLIER_REPLIES;
    const struct packet *reply = kept == 0 ? NULL : &earlier->replies[random_below(kept)];
    if (reply == NULL || number_at(reply, ORIGINATE) == latest)
        write_plausible(packet, random64(), now);
    else
        *packet = *reply;
}

static void write_random(struct packet *packet) {
    packet->length = (size_t)random_below(happens(9000) ? 100 : LONGEST_PACKET);
    random_octets(packet, 0, packet->length);
}

uint32_t make_kiss(struct packet *reply) {
    uint32_t code = codes[random_below(sizeof codes / sizeof codes[0])];
    put_first(reply, 3, version_of(reply), mode_of(reply));
    reply->octets[STRATUM] = 0;
    put_word(reply, IDENTIFIER, code);
    return code;
}

enum forgery { RANDOM, COPY, CLOCK, ZERO, REFLECTED, KISS, BROADCAST, PLAUSIBLE, FORGERIES };

/* A plausible reply, made wrong in one more way. */
static void write_wrong(struct packet *packet, enum forgery kind, uint64_t now) {
    uint64_t originate = kind == ZERO || kind == REFLECTED ? 0 : random64();
    if (kind == CLOCK) /* the token taken for the clock's reading, up to 16 ms ago */
        originate = now - random_below(1 << 26);
    write_plausible(packet, originate, now);
    if (kind == REFLECTED)
        put_first(packet, 0, 4, 3);
    else if (kind == KISS)
        make_kiss(packet);
    else if (kind == BROADCAST)
        put_first(packet, 0, 4, 5);
}

void forge_reply(struct packet *packet, const struct earlier *earlier, uint64_t latest, uint64_t now) {
    enum forgery kind = (enum forgery)random_below(FORGERIES);
    if (kind == RANDOM)
        write_random(packet);
    else if (kind == COPY)
        write_copy(packet, earlier, latest, now);
    else
        write_wrong(packet, kind, now);
}

void forge_request(struct packet *packet) {
    write_random(packet);
    if (happens(5000))
        return;
    packet->length = PACKET;
    random_octets(packet, 0, PACKET);
    put_first(packet, (unsigned)random_below(4), (unsigned)(1 + random_below(4)), 3);
}
