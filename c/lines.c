#include "lines.h"

#include <stdio.h>
#include <stdlib.h>
#include <string.h>

enum { LONGEST_SLICE = 40, LONGEST_LENT = 80, LONGEST_PACKET = 1040 };

struct slice lend(size_t length) {
    struct slice s = {malloc(length > 0 ? length : 1), length};
    if (s.octets == NULL)
        abort();
    return s;
}

struct slice take(struct rest *rest, size_t length) {
    if (rest->length < length) {
        rest->well_formed = 0;
        length = 0;
    }
    struct slice s = lend(length);
    memcpy(s.octets, rest->octets, length);
    rest->octets += length;
    rest->length -= length;
    return s;
}

uint64_t number(struct rest *rest, size_t width) {
    if (rest->length < width) {
        rest->well_formed = 0;
        return 0;
    }
    uint64_t n = 0;
    for (size_t i = 0; i < width; i++)
        n = n << 8 | rest->octets[i];
    rest->octets += width;
    rest->length -= width;
    return n;
}

struct slice take_slice(struct rest *rest) {
    size_t length = (size_t)number(rest, 1);
    if (length > LONGEST_SLICE)
        rest->well_formed = 0;
    return take(rest, length);
}

struct slice lend_filled(size_t length) {
    struct slice s = lend(length);
    for (size_t i = 0; i < length; i++)
        s.octets[i] = (uint8_t)(0x5A + i);
    return s;
}

struct slice take_buffer(struct rest *rest) {
    size_t length = (size_t)number(rest, 1);
    if (length > LONGEST_LENT)
        rest->well_formed = 0;
    return lend_filled(length);
}

uint32_t take_flag(struct rest *rest) {
    uint32_t flag = (uint32_t)number(rest, 1);
    if (flag > 1)
        rest->well_formed = 0;
    return flag;
}

struct slice take_packet(struct rest *rest) {
    if (rest->length > LONGEST_PACKET)
        rest->well_formed = 0;
    return take(rest, rest->length);
}

int64_t signed64(uint64_t bits) {
    return bits <= INT64_MAX ? (int64_t)bits : -(int64_t)(UINT64_MAX - bits) - 1;
}

int32_t signed8(uint8_t bits) {
    return bits <= INT8_MAX ? bits : bits - 256;
}

int32_t signed32(uint32_t bits) {
    return bits <= INT32_MAX ? (int32_t)bits : -(int32_t)(UINT32_MAX - bits) - 1;
}

int is_whole(const struct rest *rest) {
    return rest->well_formed && rest->length == 0;
}

static void put(const uint8_t *octets, size_t length) {
    static const char digits[] = "0123456789ABCDEF";
    char text[2 * 64];
    size_t used = 0;
    for (size_t i = 0; i < length; i++) {
        text[used++] = digits[octets[i] >> 4];
        text[used++] = digits[octets[i] & 15];
        if (used == sizeof text || i + 1 == length) {
            fwrite(text, 1, used, stdout);
            used = 0;
        }
    }
}

void answer(int whole, uint32_t leading, struct slice first, struct slice second) {
    uint8_t octet = (uint8_t)(whole ? leading : PONGULVESZ_LINE_MALFORMED);
    put(&octet, 1);
    if (whole) {
        put(first.octets, first.length);
        put(second.octets, second.length);
    }
    putchar('\n');
    free(first.octets);
    free(second.octets);
}

const struct slice none = {NULL, 0};

void append(struct slice *octets, uint64_t n, size_t width) {
    for (size_t shift = 8 * width; shift > 0; shift -= 8)
        octets->octets[octets->length++] = (uint8_t)(n >> (shift - 8));
}

struct slice octets_of(const uint64_t *numbers, const size_t *widths, size_t count) {
    struct slice octets = lend(8 * count);
    octets.length = 0;
    for (size_t i = 0; i < count; i++)
        append(&octets, numbers[i], widths[i]);
    return octets;
}

void answer_numbers(int whole, uint32_t refusal, const uint64_t *numbers, const size_t *widths, size_t count) {
    answer(whole, refusal, octets_of(numbers, widths, refusal == 0 ? count : 0), none);
}
