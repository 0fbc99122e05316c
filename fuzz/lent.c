#define _GNU_SOURCE
#include "lent.h"
#include "tally.h"
#include <inttypes.h>
#include <stdio.h>
#include <stdlib.h>
#include <string.h>
#include <sys/mman.h>

/* BESIDE octets on each side of a slice are close to it. */
enum { PAGE = 4096, BESIDE = 64, INPUTS_A_CHECK = 16 };

/* A page between two without access, what is lent there, and what it was before the call. */
struct place {
    uint8_t *page, *octets;
    size_t length;
    uint64_t before[LONGEST_SLICE / 8], copy[LONGEST_SLICE / 8];
    struct lent lent;
};

static struct place places[MOST_LENT];
static size_t lent_count;
static int ends_at_page_end;
static uint8_t known[PAGE];

static uint8_t *make_page(void) {
    uint8_t *pages = mmap(NULL, 3 * PAGE, PROT_NONE, MAP_PRIVATE | MAP_ANONYMOUS, -1, 0);
    if (pages == MAP_FAILED || mprotect(pages + PAGE, PAGE, PROT_READ | PROT_WRITE) != 0) {
        perror("pages for slices");
        exit(1);
    }
    return memcpy(pages + PAGE, known, PAGE);
}

void make_places(void) {
    for (size_t i = 0; i < PAGE; i++)
        known[i] = (uint8_t)(0xA5 ^ i * 151 >> 3);
    for (size_t i = 0; i < MOST_LENT; i++)
        places[i].page = make_page();
}

void lend_at_end(int at_end) {
    ends_at_page_end = at_end;
}

const struct lent *lend(const void *octets, size_t length) {
    if (length > LONGEST_SLICE || lent_count == MOST_LENT)
        abort();
    struct place *place = &places[lent_count++];
    place->length = length;
    place->octets = place->page + (ends_at_page_end ? PAGE - length : 0);
    memcpy(place->octets, octets, length);
    memcpy(place->before, octets, length);
    memcpy(place->copy, octets, length);
    place->lent = (struct lent){place->octets, place->copy, length};
    return &place->lent;
}

/* Octets that a refused call must leave there. */
const struct lent *lend_number(size_t width) {
    static const uint8_t other[8] = {0xD1, 0xD2, 0xD3, 0xD4, 0xD5, 0xD6, 0xD7, 0xD8};
    return lend(other, width);
}

/* What is compared here is this file's own, and no index comes from a call. Without the sanitizers' tests of every
 * octet it takes a tenth of the time. */
__attribute__((no_sanitize("address", "undefined"))) static int same(const void *l, const void *r, size_t length) {
    const uint8_t *left = l, *right = r;
    uint8_t different = 0;
    for (size_t i = 0; i < length; i++)
        different |= left[i] ^ right[i];
    return different == 0;
}

static void show(const char *words, const void *octets, size_t length) {
    fprintf(stderr, "  %s ", words);
    for (size_t i = 0; i < length; i++)
        fprintf(stderr, "%02X", ((const uint8_t *)octets)[i]);
    fputc('\n', stderr);
}

/* Says the fault, shows what the call was given and both answers, and stops the program. */
static void stop(enum call call, const char *fault, uint64_t archive, uint64_t independent, const uint64_t *given,
                 size_t given_count) {
    fprintf(stderr, "pongulvesz_%s: %s\n", name_of(call), fault);
    fprintf(stderr, "  returned: archive %" PRIu64 ", independent %" PRIu64 "\n  given:", archive, independent);
    for (size_t i = 0; i < given_count; i++)
        fprintf(stderr, " %" PRIX64, given[i]);
    fputc('\n', stderr);
    for (size_t i = 0; i < lent_count; i++) {
        show("slice, before:     ", places[i].before, places[i].length);
        show("slice, archive:    ", places[i].octets, places[i].length);
        show("slice, independent:", places[i].copy, places[i].length);
    }
    abort();
}

static const char *fault_of_answer(const struct place *place, int refused) {
    if (!same(place->octets, place->copy, place->length))
        return "a slice differs";
    if (refused && !same(place->octets, place->before, place->length))
        return "a refused call wrote";
    return NULL;
}

/* Whether the octets of a page from one index to another are the known ones. */
static int are_known(const struct place *place, size_t from, size_t to) {
    return same(place->page + from, known + from, to - from);
}

/* Gives the page its known octets back, and looks at those close to the slice. */
static const char *fault_beside(const struct place *place) {
    size_t from = (size_t)(place->octets - place->page), to = from + place->length;
    memcpy(place->octets, known + from, place->length);
    int whole = are_known(place, from < BESIDE ? 0 : from - BESIDE, to > PAGE - BESIDE ? PAGE : to + BESIDE);
    return whole ? NULL : "an octet beside a slice changed";
}

/* What is wrong with the lent octets, if anything. */
static const char *fault_of_octets(int refused) {
    const char *fault = NULL;
    for (size_t i = 0; fault == NULL && i < lent_count; i++)
        fault = fault_of_answer(&places[i], refused);
    for (size_t i = 0; fault == NULL && i < lent_count; i++)
        fault = fault_beside(&places[i]);
    return fault;
}

uint32_t settle(enum call call, uint32_t archive, uint32_t independent, const uint64_t *given, size_t given_count) {
    const char *fault = NULL;
    if (archive != independent)
        fault = "the numbers differ";
    else if (!can_give(call, archive))
        fault = "the header does not list the number";
    else
        fault = fault_of_octets(archive != 0);
    if (fault != NULL)
        stop(call, fault, archive, independent, given, given_count);
    lent_count = 0;
    count_number(call, archive);
    return archive;
}

size_t settle_count(enum call call, size_t archive, size_t independent, const uint64_t *given, size_t given_count) {
    const char *fault = archive != independent ? "the counts differ" : fault_of_octets(0);
    if (fault != NULL)
        stop(call, fault, archive, independent, given, given_count);
    lent_count = 0;
    return archive;
}

void check_pages(void) {
    static unsigned inputs;
    if (inputs++ % INPUTS_A_CHECK != 0)
        return;
    for (size_t i = 0; i < MOST_LENT; i++)
        if (!are_known(&places[i], 0, PAGE)) {
            fputs("an octet far from a slice changed, in this input or one of the 15 before it\n", stderr);
            abort();
        }
}
