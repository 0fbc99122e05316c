/* Octets that are lent for reading, and the numbers that stand in them. */
#ifndef CAPTURE_OCTETS_H
#define CAPTURE_OCTETS_H

#include <stddef.h>
#include <stdint.h>

struct octets {
    const uint8_t *first;
    size_t length;
};

enum byte_order { LITTLE_ENDIAN_ORDER, BIG_ENDIAN_ORDER };

/* What is left behind the first so many octets, at most `length` of them. */
static inline struct octets behind(struct octets octets, size_t count) {
    size_t step = count < octets.length ? count : octets.length;
    return (struct octets){octets.first + step, octets.length - step};
}

static inline uint64_t number_at(const uint8_t *first, size_t width, enum byte_order order) {
    uint64_t number = 0;
    for (size_t i = 0; i < width; i++)
        number = number << 8 | first[order == BIG_ENDIAN_ORDER ? i : width - 1 - i];
    return number;
}

/* Numbers of a network packet are big-endian. */
static inline uint16_t number16(const uint8_t *first) {
    return (uint16_t)number_at(first, 2, BIG_ENDIAN_ORDER);
}

#endif
