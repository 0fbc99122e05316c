#include "input.h"

uint64_t number(struct input *input, size_t width) {
    uint64_t n = 0;
    for (size_t i = 0; i < width; i++)
        n = n << 8 | octet(input);
    return n;
}

/* The octet's lower three bits say which number it is, the upper five how far from it, -16 to 15. */
uint64_t number_near(struct input *input, uint64_t other) {
    const uint64_t half_circle = UINT64_C(1) << 63, sixteen_seconds = UINT64_C(1) << 36;
    uint8_t form = octet(input);
    uint64_t step = form >> 3;
    if (step >= 16)
        step -= 32;
    switch (form & 7) {
    case 0: return other + step;
    case 1: return other + half_circle + step;
    case 2: return other + sixteen_seconds + step;
    case 3: return other + step * number(input, 4);
    case 4: return other + (number(input, 3) << 16);
    case 5: return number(input, 8);
    case 6: return step;
    default: return (UINT64_C(1) << (octet(input) & 63)) + step;
    }
}

uint32_t number_within(struct input *input, uint32_t least, uint32_t largest) {
    uint8_t form = octet(input);
    if (form < 0xE0)
        return least + form % (largest - least + 1);
    switch (form & 7) {
    case 0: return least - 1;
    case 1: return largest + 1;
    case 2: return least + 256;
    case 3: return largest + 256;
    case 4: return octet(input);
    case 5: return (uint32_t)number(input, 2);
    default: return (uint32_t)number(input, 4);
    }
}

size_t length_about(struct input *input, size_t usual, size_t largest) {
    uint8_t form = octet(input);
    size_t length = usual;
    if (form >= 0xFC)
        length = (size_t)number(input, 2);
    else if (form >= 0xF0)
        length = usual + form - 0xF6;
    return length <= largest ? length : length % (largest + 1);
}
