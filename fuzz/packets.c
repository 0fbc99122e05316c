#include "packets.h"
#include <string.h>

/* What of a packet is the input's, as bits of the octet that it begins with; all else is such as passes. */
enum part {
    FIRST_OCTET = 1,
    STRATUM = 2,
    KISS_CODE = 4,
    ROOT_DELAY = 8,
    ROOT_DISPERSION = 16,
    ORIGINATE = 32,
    TIMES = 64,
    TAIL = 128
};

/* A root delay or root dispersion, about the limit of both, 65536, or any. */
static void put_root(struct input *input, uint8_t *octets) {
    uint8_t form = octet(input);
    uint64_t root = form < 128 ? UINT64_C(65536) - 64 + form : number(input, 4);
    for (size_t i = 0; i < 4; i++)
        octets[i] = (uint8_t)(root >> (24 - 8 * i));
}

/* A code of rows 1 to 14, or any other. */
static void put_kiss_code(struct input *input, uint8_t *octets) {
    static const char codes[] = "ACSTAUTHAUTOBCSTCRYPDENYDROPRSTRINITMCSTNKEYRATERMOTSTEP";
    size_t row = octet(input) % 16;
    for (size_t i = 0; i < 4; i++)
        octets[i] = row < 14 ? (uint8_t)codes[4 * row + i] : octet(input);
}

static size_t least(size_t a, size_t b) {
    return a < b ? a : b;
}

/* An extension field, whose head states another length than it has where the octet's bit 6 is set. */
static size_t put_field(struct input *input, uint8_t *packet, size_t length) {
    uint8_t form = octet(input);
    size_t octets = (size_t)(form & 63) * (form & 128 ? 32 : 4);
    size_t stated = form & 64 ? octets + octet(input) - 128 : octets;
    uint8_t head[4] = {octet(input), octet(input), (uint8_t)(stated >> 8), (uint8_t)stated};
    octets = least(octets, LONGEST_PACKET - length);
    memset(packet + length, form, octets);
    memcpy(packet + length, head, least(octets, sizeof head));
    return length + octets;
}

/* Up to seven fields, then 0 to 31 octets, of which 4, 20 and 24 are an authenticator. */
static size_t put_tail(struct input *input, uint8_t *packet, size_t length) {
    uint8_t form = octet(input);
    for (size_t fields = 0; fields < (form & 7); fields++)
        length = put_field(input, packet, length);
    size_t behind = least(form >> 3, LONGEST_PACKET - length);
    memset(packet + length, form, behind);
    return length + behind;
}

/* No leap second, the version of the image's request, and the mode of the kind. */
static uint8_t first_octet(enum packet_kind kind, const uint8_t *image) {
    static const uint8_t modes[] = {4, 3, 5};
    uint32_t version = pongulvesz_image_version(image);
    return (uint8_t)((version != 0 ? version : 4) << 3 | modes[kind]);
}

/* What of the first octet is otherwise: all leap indicator bits, some of the mode, some of the version, or any. */
static uint8_t first_octet_change(struct input *input) {
    static const uint8_t bits[] = {0, 0x07, 0x38, 0xFF};
    uint8_t form = octet(input);
    return form < 64 ? 0xC0 : form & bits[form / 64];
}

/* Originate, which is the image's token, and receive and transmit, which are about its T1. */
static void put_times(struct input *input, int parts, const uint8_t *image, uint8_t *packet) {
    uint64_t t1 = pongulvesz_image_t1(image), originate = pongulvesz_image_token(image);
    uint64_t t2 = t1 != 0 ? t1 : 1, t3 = t2;
    if (parts & ORIGINATE)
        originate = number_near(input, originate);
    if (parts & TIMES) {
        t2 = number_near(input, t2);
        t3 = number_near(input, t2);
    }
    put_number(packet + 24, originate);
    put_number(packet + 32, t2);
    put_number(packet + 40, t3);
}

static size_t make_packet(struct input *input, enum packet_kind kind, const uint8_t *image, uint8_t *packet) {
    int parts = octet(input);
    memset(packet, 0, PONGULVESZ_PACKET);
    packet[0] = first_octet(kind, image);
    if (parts & FIRST_OCTET)
        packet[0] ^= first_octet_change(input);
    packet[1] = parts & STRATUM ? octet(input) : 1;
    if (parts & KISS_CODE) {
        packet[1] = 0;
        put_kiss_code(input, packet + 12);
    }
    if (parts & ROOT_DELAY)
        put_root(input, packet + 4);
    if (parts & ROOT_DISPERSION)
        put_root(input, packet + 8);
    put_times(input, parts, image, packet);
    return parts & TAIL ? put_tail(input, packet, PONGULVESZ_PACKET) : PONGULVESZ_PACKET;
}

static size_t any_octets(struct input *input, uint8_t *packet) {
    size_t length = length_about(input, PONGULVESZ_PACKET, LONGEST_PACKET);
    for (size_t i = 0; i < length; i++)
        packet[i] = octet(input);
    return length;
}

const struct lent *lend_packet(struct input *input, struct state *state, enum packet_kind kind, const uint8_t *image) {
    uint8_t *packet = state->packet;
    size_t *length = &state->packet_length;
    switch (octet(input) % 16) {
    case 9: /* the state's, as it is */
    case 10: break;
    case 11: *length = length_about(input, *length, LONGEST_PACKET); break;
    case 12: packet[number(input, 2) % LONGEST_PACKET] = octet(input); break;
    case 13: *length = any_octets(input, packet); break;
    case 14: *length = make_packet(input, REPLY, image, packet); break;
    case 15: *length = make_packet(input, BROADCAST, image, packet); break;
    default: *length = make_packet(input, kind, image, packet);
    }
    return lend(packet, *length);
}

void put_request(struct input *input, const uint8_t *image, uint8_t octets[PONGULVESZ_PACKET]) {
    uint8_t packet[LONGEST_SLICE];
    make_packet(input, REQUEST, image, packet);
    memcpy(octets, packet, PONGULVESZ_PACKET);
}
