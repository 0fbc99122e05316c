/* A conformance line (docs/CONFORMANCE.md): its parts in order, the slices that a call is lent, and the answer. Each slice has memory of its own, of exactly its
 * length, so that a sanitizer sees a step past its end. */
#ifndef LINES_H
#define LINES_H

#include <pongulvesz.h>

/* What is left of a line. */
struct rest {
    const uint8_t *octets;
    size_t length;
    int well_formed;
};

struct slice {
    uint8_t *octets;
    size_t length;
};

extern const struct slice none;

struct slice lend(size_t length);

/* A slice of length octets. Octet i is 5A + i in hexadecimal. */
struct slice lend_filled(size_t length);

/* The next octets of a line, and what they stand for: a number of width octets, yes or no, an image or an answer slice with its length before it, a buffer
 * of which the line has the length alone, and a packet, which is the rest of the line. */
struct slice take(struct rest *rest, size_t length);
uint64_t number(struct rest *rest, size_t width);
uint32_t take_flag(struct rest *rest);
struct slice take_slice(struct rest *rest);
struct slice take_buffer(struct rest *rest);
struct slice take_packet(struct rest *rest);

/* Two's complement. */
int64_t signed64(uint64_t bits);
int32_t signed32(uint32_t bits);
int32_t signed8(uint8_t bits);

/* A line is well formed where it had all that its operation takes, and nothing is left. */
int is_whole(const struct rest *rest);

/* Puts a number of width octets behind those that are there. */
void append(struct slice *octets, uint64_t n, size_t width);

/* Numbers, each with as many octets as widths says. */
struct slice octets_of(const uint64_t *numbers, const size_t *widths, size_t count);

/* Writes the answer: an octet, which is the number but in the answer of an arrival, and the slices as they are after the call; 40 alone for a line that is not
 * whole. Frees the slices. */
void answer(int whole, uint32_t leading, struct slice first, struct slice second);

/* Writes an answer of numbers, which are there where nothing was refused. */
void answer_numbers(int whole, uint32_t refusal, const uint64_t *numbers, const size_t *widths, size_t count);

#endif
