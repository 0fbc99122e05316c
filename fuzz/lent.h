/* What a call is lent, slices of octets and pointers to numbers, and the comparison of the two answers.
 *
 * The archive comes compiled, and its code has no sanitizer. In its stead stand the places: each slice has a page of
 * its own, and ends where the page ends or begins where it begins; beside it is a page without access, and all else of
 * its page has known octets. So a read or a write of the archive past one end of a slice is a fault at once, and a
 * write past the other end is seen after the call. Which end it is changes from input to input. */
#ifndef FUZZ_LENT_H
#define FUZZ_LENT_H

#include "calls.h"

/* No slice is longer, and no call is lent more of them. */
enum { LONGEST_SLICE = 1104, MOST_LENT = 8 };

/* A slice or a number as it is lent to the archive, and its copy, which is lent to the independent program. */
struct lent {
    void *archive;
    void *independent;
    size_t length;
};

/* Maps the places. */
void make_places(void);

/* Whether the slices that are lent from now on end where a page ends. */
void lend_at_end(int at_end);

/* Lends a slice that has these octets. */
const struct lent *lend(const void *octets, size_t length);

/* Lends a number of width octets that a call writes. */
const struct lent *lend_number(size_t width);

/* Makes a call of both programs and compares the answers. WITH(side) are the arguments, side being archive or
 * independent; the arguments that are no slices follow, to be shown where the answers differ. Gives the number. */
#define COMPARE(name, ...) \
    settle(CALL_##name, pongulvesz_##name(WITH(archive)), independent_##name(WITH(independent)), \
           (const uint64_t[]){__VA_ARGS__}, sizeof(const uint64_t[]){__VA_ARGS__} / sizeof(uint64_t))

/* The same for a call that returns a count and refuses nothing. Gives the count. */
#define COMPARE_COUNT(name, ...) \
    settle_count(CALL_##name, pongulvesz_##name(WITH(archive)), independent_##name(WITH(independent)), \
                 (const uint64_t[]){__VA_ARGS__}, sizeof(const uint64_t[]){__VA_ARGS__} / sizeof(uint64_t))

#define SLICE(lent, side) (lent)->side, (lent)->length

/* Compares number and lent octets, and stops the program if they differ, if the header does not list the number, if a
 * refused call wrote, or if an octet close to a slice has changed. Afterwards nothing is lent; what the slices had after
 * the call stands in the independent program's copy until the next is lent. */
uint32_t settle(enum call call, uint32_t archive, uint32_t independent, const uint64_t *given, size_t given_count);

/* The same for counts. */
size_t settle_count(enum call call, size_t archive, size_t independent, const uint64_t *given, size_t given_count);

/* At the end of an input: at the first one and at each sixteenth after it all octets of the pages are looked at. */
void check_pages(void);

#endif
