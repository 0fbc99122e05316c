#include "state.h"
#include <string.h>

/* The first and the last wait since second 1, which is 2^32 units, for a reply of version 4 with token 9. */
static const struct state beginning = {
    .images = {1, 4, 1, [11] = 1, [23] = 9, [66] = 1, [96] = 2, 0, 1, [128] = 1, 4, 1, [139] = 1, [151] = 9},
    .image_count = 5,
    .packet_length = PONGULVESZ_PACKET,
    .cursor = PONGULVESZ_PACKET};

struct state begin(void) {
    return beginning;
}

static size_t offset_of(size_t at) {
    return PONGULVESZ_IMAGE * (at % MOST_IMAGES);
}

const uint8_t *image_at(const struct state *state, size_t at) {
    return state->images + offset_of(at);
}

uint64_t interval_end(const uint8_t *image) {
    return pongulvesz_image_uptime(image) + (UINT64_C(1) << pongulvesz_image_exponent(image) % 16);
}

uint64_t number_at(const uint8_t *octets) {
    struct input input = {octets, 8};
    return number(&input, 8);
}

void put_number(uint8_t *octets, uint64_t n) {
    for (size_t i = 0; i < 8; i++)
        octets[i] = (uint8_t)(n >> (56 - 8 * i));
}

/* An uptime of a last ask: about the state's timestamp, or about the last from which a give-up or an ask is ever due. */
static uint64_t take_uptime(struct input *input, const struct state *state, uint32_t exponent) {
    const uint64_t uptimes[] = {state->timestamp, UINT64_MAX - 16, UINT64_MAX - (UINT64_C(1) << exponent)};
    const uint64_t about = uptimes[octet(input) % 3];
    return number_near(input, about);
}

/* docs/C.md, "Layouts", has the octets. */
void set_image(struct input *input, struct state *state) {
    uint8_t counts = octet(input);
    state->image_count = counts % (MOST_IMAGES + 1);
    state->in_use = counts / (MOST_IMAGES + 1) % MOST_IMAGES;
    uint8_t *image = state->images + offset_of(octet(input));
    memset(image, 0, PONGULVESZ_IMAGE);
    image[0] = octet(input) % 3;
    image[2] = 1;
    image[3] = octet(input) % 9;
    put_number(image + 24, take_uptime(input, state, pongulvesz_image_exponent(image)));
    if (pongulvesz_image_phase(image) != PONGULVESZ_WAITING)
        return;
    image[1] = (uint8_t)(1 + octet(input) % 4);
    put_number(image + 8, number_near(input, UINT64_C(1) << 32));
    put_number(image + 16, number_near(input, pongulvesz_image_t1(image)));
}

static void take_octets(struct input *input, uint8_t *octets, size_t length) {
    for (size_t i = 0; i < length; i++)
        octets[i] = octet(input);
}

const struct lent *lend_image(struct input *input, const struct state *state, size_t at) {
    uint8_t octets[40] = {0};
    size_t length = PONGULVESZ_IMAGE;
    memcpy(octets, image_at(state, at), PONGULVESZ_IMAGE);
    switch (octet(input) % 32) {
    case 29: length = octet(input) % (sizeof octets + 1); break;
    case 30: take_octets(input, octets + octet(input) % PONGULVESZ_IMAGE, 1); break;
    case 31: take_octets(input, octets, PONGULVESZ_IMAGE); break;
    default: break;
    }
    return lend(octets, length);
}

const struct lent *lend_list(struct input *input, const struct state *state) {
    uint8_t octets[sizeof state->images];
    size_t length = PONGULVESZ_IMAGE * state->image_count;
    memcpy(octets, state->images, sizeof octets);
    switch (octet(input) % 32) {
    case 30: length = (size_t)number(input, 2) % (sizeof octets + 1); break;
    case 31: take_octets(input, octets + number(input, 2) % sizeof octets, 1); break;
    default: break;
    }
    return lend(octets, length);
}

const struct lent *lend_buffer(struct input *input, size_t usual) {
    uint8_t octets[80];
    for (size_t i = 0; i < sizeof octets; i++)
        octets[i] = (uint8_t)(0x5A + i);
    return lend(octets, length_about(input, usual, sizeof octets));
}

void keep_image(struct state *state, size_t at, const struct lent *image) {
    if (image->length == PONGULVESZ_IMAGE)
        memcpy(state->images + offset_of(at), image->independent, PONGULVESZ_IMAGE);
}

void keep_list(struct state *state, const struct lent *list) {
    memcpy(state->images, list->independent, list->length);
}

void keep_packet(struct state *state, const struct lent *buffer, size_t length) {
    memcpy(state->packet, buffer->independent, length);
    state->packet_length = length;
}
