/* The server's reply, and broadcast. */
#include "packets.h"
#include "tally.h"
#include "tries.h"
#include <string.h>

struct settings {
    uint32_t synchronised, leap;
    int32_t precision;
    uint32_t identifier;
    uint64_t reference;
};

#define SETTINGS(s) (s).synchronised, (s).leap, (s).precision, (s).identifier, (s).reference
#define SHOWN_SETTINGS(s) (s).synchronised, (s).leap, (uint32_t)(s).precision, (s).identifier, (s).reference

/* Mostly legal settings; zero octets are those of a server that is synchronised. */
static struct settings take_settings(struct input *input) {
    struct settings s;
    s.synchronised = 1 - number_within(input, 0, 1);
    s.leap = number_within(input, 0, 2);
    s.precision = (int32_t)(number_within(input, 0, 32) - 32);
    s.identifier = (uint32_t)number(input, 4);
    s.reference = number_near(input, 0);
    return s;
}

void try_reply(struct input *input, struct state *state) {
    struct settings s = take_settings(input);
    uint64_t t2 = number_near(input, UINT64_C(1) << 32), t3 = number_near(input, t2);
    const struct lent *buffer = lend_buffer(input, PONGULVESZ_PACKET);
    const struct lent *request = lend_packet(input, state, REQUEST, image_at(state, 0));
#define WITH(side) SETTINGS(s), t2, t3, SLICE(buffer, side), SLICE(request, side)
    uint32_t refusal = COMPARE(reply, SHOWN_SETTINGS(s), t2, t3);
#undef WITH
    if (refusal == 0)
        keep_packet(state, buffer, PONGULVESZ_PACKET);
}

/* What a block is lent, with room for MOST_REQUESTS and one more, and the lengths, mostly those of count requests. */
enum { MOST_REQUESTS = 5, ROOM = MOST_REQUESTS + 1 };

struct block {
    uint8_t requests[ROOM * PONGULVESZ_PACKET], replies[ROOM * PONGULVESZ_PACKET], numbers[ROOM];
    uint64_t times[2 * ROOM];
    size_t requests_length, times_length, replies_length, numbers_length;
};

static struct block take_block(struct input *input, const uint8_t *image) {
    struct block block = {.times = {0}};
    size_t count = 1 + octet(input) % MOST_REQUESTS;
    memset(block.replies, 0x5A, sizeof block.replies);
    memset(block.numbers, 0xD1, sizeof block.numbers);
    block.requests_length = length_about(input, PONGULVESZ_PACKET * count, sizeof block.requests);
    block.times_length = length_about(input, 2 * count, 2 * ROOM);
    block.replies_length = length_about(input, PONGULVESZ_PACKET * count, sizeof block.replies);
    block.numbers_length = length_about(input, count, ROOM);
    for (size_t i = 0; i < ROOM; i++) {
        put_request(input, image, block.requests + PONGULVESZ_PACKET * i);
        block.times[2 * i] = number_near(input, UINT64_C(1) << 32);
        block.times[2 * i + 1] = number_near(input, block.times[2 * i]);
    }
    return block;
}

/* The slice with the least room, the first if several have it. */
static size_t least_room(const struct block *block) {
    const size_t rooms[] = {block->requests_length / PONGULVESZ_PACKET, block->times_length / 2,
                            block->replies_length / PONGULVESZ_PACKET, block->numbers_length};
    size_t least = 0;
    for (size_t i = 1; i < 4; i++)
        if (rooms[i] < rooms[least])
            least = i;
    return least;
}

void try_reply_block(struct input *input, struct state *state) {
    struct settings s = take_settings(input);
    struct block block = take_block(input, image_at(state, 0));
    const struct lent *requests = lend(block.requests, block.requests_length);
    const struct lent *times = lend(block.times, 8 * block.times_length);
    const struct lent *replies = lend(block.replies, block.replies_length);
    const struct lent *numbers = lend(block.numbers, block.numbers_length);
#define WITH(side) \
    SETTINGS(s), SLICE(requests, side), times->side, block.times_length, SLICE(replies, side), SLICE(numbers, side)
    size_t count = COMPARE_COUNT(reply_block, SHOWN_SETTINGS(s));
#undef WITH
    count_told(CALL_reply_block, least_room(&block));
    const uint8_t *given = numbers->independent;
    for (size_t i = 0; i < count; i++)
        count_number(CALL_reply_block, given[i]);
}

void try_broadcast(struct input *input, struct state *state) {
    struct settings s = take_settings(input);
    uint32_t version = number_within(input, 1, 4), poll = number_within(input, 4, 14);
    uint64_t t3 = number_near(input, state->timestamp);
    const struct lent *buffer = lend_buffer(input, PONGULVESZ_PACKET);
#define WITH(side) SETTINGS(s), version, poll, t3, SLICE(buffer, side)
    uint32_t refusal = COMPARE(broadcast, SHOWN_SETTINGS(s), version, poll, t3);
#undef WITH
    if (refusal == 0)
        keep_packet(state, buffer, PONGULVESZ_PACKET);
}

/* T4 is about the packet's transmit timestamp. */
void try_broadcast_arrival(struct input *input, struct state *state) {
    const struct lent *packet = lend_packet(input, state, BROADCAST, image_at(state, 0)), *difference = lend_number(8);
    uint64_t t4 = number_near(input, number_at(state->packet + 40));
#define WITH(side) t4, SLICE(packet, side), difference->side
    COMPARE(broadcast_arrival, t4);
#undef WITH
}
