/* What the calls of one input have in common: each can be given what those before it left. */
#ifndef FUZZ_STATE_H
#define FUZZ_STATE_H

#include "input.h"
#include "lent.h"

/* Nine images are one more than a list may have, and 1040 octets some more than a packet may. */
enum { MOST_IMAGES = 9, LONGEST_PACKET = 1040 };

struct state {
    uint8_t images[MOST_IMAGES * PONGULVESZ_IMAGE];
    size_t image_count, in_use;
    uint8_t packet[LONGEST_SLICE];
    size_t packet_length, cursor;
    int64_t debt, seconds;
    uint32_t nanoseconds;
    uint64_t timestamp;
};

/* A list of five clients: one waits for a reply, one never asked, one is idle, one is stopped, and one waits too. */
struct state begin(void);

/* Sets an image, to a legal one mostly, how many there are, and which is in use. */
void set_image(struct input *input, struct state *state);

/* The image of the record of a number. */
const uint8_t *image_at(const struct state *state, size_t at);

/* The uptime at which the poll interval of a legal image ends. */
uint64_t interval_end(const uint8_t *image);

/* A number of eight octets, big-endian. */
uint64_t number_at(const uint8_t *octets);
void put_number(uint8_t *octets, uint64_t number);

/* Lends an image, mostly as it is, else with an octet changed, with other octets or of another length. */
const struct lent *lend_image(struct input *input, const struct state *state, size_t at);

/* Lends all images, mostly as they are, else with an octet changed or of another length. */
const struct lent *lend_list(struct input *input, const struct state *state);

/* Lends a buffer with some octets, mostly of the usual length. */
const struct lent *lend_buffer(struct input *input, size_t usual);

/* What stands after a call in what was lent becomes the state's. */
void keep_image(struct state *state, size_t at, const struct lent *image);
void keep_list(struct state *state, const struct lent *list);
void keep_packet(struct state *state, const struct lent *buffer, size_t length);

#endif
