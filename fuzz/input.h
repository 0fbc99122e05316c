/* The fuzzer's input, read from its front. Past its end every octet is 0. */
#ifndef FUZZ_INPUT_H
#define FUZZ_INPUT_H

#include <stddef.h>
#include <stdint.h>

struct input {
    const uint8_t *octets;
    size_t length;
};

static inline uint8_t octet(struct input *input) {
    if (input->length == 0)
        return 0;
    input->length--;
    return *input->octets++;
}

/* A number of width octets, big-endian. */
uint64_t number(struct input *input, size_t width);

/* A number about another one: at most 16 from it, from half a circle past it or from 16 s of units past it, further
 * away, about zero or a power of two, or any number. Zero octets give the other one itself. */
uint64_t number_near(struct input *input, uint64_t other);

/* A number of 32 bits, mostly from least to largest, else one past an end, 256 past one, or any. Zero octets give the
 * least. */
uint32_t number_within(struct input *input, uint32_t least, uint32_t largest);

/* A length up to largest, mostly the usual one, else close to it or any. Zero octets give the usual one. */
size_t length_about(struct input *input, size_t usual, size_t largest);

#endif
