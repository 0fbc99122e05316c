#include "checksum.h"

/* The remainder after one more octet, bit by bit: a state file is short. */
static uint32_t with_octet(uint32_t remainder, uint8_t octet) {
    remainder ^= octet;
    for (int bit = 0; bit < 8; bit++)
        remainder = remainder >> 1 ^ (remainder & 1 ? UINT32_C(0xEDB88320) : 0);
    return remainder;
}

uint32_t crc32_of(const char *octets, size_t length) {
    uint32_t remainder = UINT32_MAX;
    for (size_t i = 0; i < length; i++)
        remainder = with_octet(remainder, (uint8_t)octets[i]);
    return ~remainder;
}
