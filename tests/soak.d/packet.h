/* The octets of a packet, and random numbers from a seed. */
#ifndef SOAK_PACKET_H
#define SOAK_PACKET_H

#include <stddef.h>
#include <stdint.h>

enum { PACKET = 48, LONGEST_PACKET = 1100 };

/* Where the fields begin. The first octet has the leap indicator, the version and the mode. */
enum {
    STRATUM = 1,
    ROOT_DELAY = 4,
    ROOT_DISPERSION = 8,
    IDENTIFIER = 12,
    REFERENCE = 16,
    ORIGINATE = 24,
    RECEIVE = 32,
    TRANSMIT = 40
};

struct packet {
    size_t length;
    uint8_t octets[LONGEST_PACKET];
};

uint64_t number_at(const struct packet *packet, size_t at);
void put_number(struct packet *packet, size_t at, uint64_t number);
void put_word(struct packet *packet, size_t at, uint32_t word);

unsigned leap_of(const struct packet *packet);
unsigned version_of(const struct packet *packet);
unsigned mode_of(const struct packet *packet);
void put_first(struct packet *packet, unsigned leap, unsigned version, unsigned mode);

/* The same seed gives the same numbers. */
void seed_random(uint64_t seed);
uint64_t random64(void);

/* A number from 0 to limit - 1. */
uint64_t random_below(uint64_t limit);

/* Whether something that happens so many times in ten thousand happens now. */
int happens(uint64_t in_ten_thousand);

/* Writes random octets from one place to another, the end not included. */
void random_octets(struct packet *packet, size_t start, size_t end);

#endif
