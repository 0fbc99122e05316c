#include "packet.h"

uint64_t number_at(const struct packet *packet, size_t at) {
    uint64_t number = 0;
    for (size_t i = 0; i < 8; i++)
        number = number << 8 | packet->octets[at + i];
    return number;
}

void put_number(struct packet *packet, size_t at, uint64_t number) {
    put_word(packet, at, (uint32_t)(number >> 32));
    put_word(packet, at + 4, (uint32_t)number);
}

void put_word(struct packet *packet, size_t at, uint32_t word) {
    for (size_t i = 0; i < 4; i++)
        packet->octets[at + i] = (uint8_t)(word >> (24 - 8 * i));
}

unsigned leap_of(const struct packet *packet) {
    return packet->octets[0] >> 6;
}

unsigned version_of(const struct packet *packet) {
    return packet->octets[0] >> 3 & 7;
}

unsigned mode_of(const struct packet *packet) {
    return packet->octets[0] & 7;
}

void put_first(struct packet *packet, unsigned leap, unsigned version, unsigned mode) {
    packet->octets[0] = (uint8_t)(leap << 6 | version << 3 | mode);
}

static uint64_t state;

void seed_random(uint64_t seed) {
    state = seed;
}

/* SplitMix64. */
uint64_t random64(void) {
    state += UINT64_C(0x9E3779B97F4A7C15);
    uint64_t mixed = state;
    mixed = (mixed ^ mixed >> 30) * UINT64_C(0xBF58476D1CE4E5B9);
    mixed = (mixed ^ mixed >> 27) * UINT64_C(0x94D049BB133111EB);
    return mixed ^ mixed >> 31;
}

uint64_t random_below(uint64_t limit) {
    return random64() % limit;
}

int happens(uint64_t in_ten_thousand) {
    return random_below(10000) < in_ten_thousand;
}

void random_octets(struct packet *packet, size_t start, size_t end) {
    for (size_t i = start; i < end; i++)
        packet->octets[i] = (uint8_t)random64();
}
