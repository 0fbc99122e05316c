/* Compares pongulvesz_reply_block with pongulvesz_reply, request by request, on blocks whose slices have any lengths. Each slice has memory of its own, of exactly its length, so
 * that a sanitizer sees a step past its end. Prints how many blocks and requests it tried. Fails if a number that a request can get never came. */
#include <pongulvesz.h>
#include <stdio.h>
#include <stdlib.h>
#include <string.h>

enum { BLOCKS = 20000, MOST = 5, OCTETS = MOST * PONGULVESZ_PACKET };

/* What one block is lent, and the number of octets or times of each slice that the call is told. */
struct block {
    uint32_t synchronised, leap;
    int32_t precision;
    uint8_t requests[OCTETS], replies[OCTETS], numbers[MOST];
    uint64_t times[2 * MOST];
    size_t requests_length, times_length, replies_length, numbers_length;
};

static unsigned requests, given[256];

static uint32_t random_below(uint32_t bound) {
    static uint64_t state = 1;
    state = state * UINT64_C(6364136223846793005) + UINT64_C(1442695040888963407);
    return (uint32_t)(state >> 33) % bound;
}

/* Mostly the largest, else any. */
static size_t random_length(uint32_t largest) {
    return random_below(3) != 0 ? largest : random_below(largest + 1);
}

/* Seven of eight requests have version 4 and mode 3. T3 is T2, close to it, or half a circle past it, and one T2 of eight is zero. */
static struct block random_block(void) {
    struct block b = {.synchronised = random_below(3), .leap = random_below(9) / 2 % 4, .precision = (int32_t)random_below(40) - 36};
    for (size_t i = 0; i < OCTETS; i++) {
        b.requests[i] = (uint8_t)random_below(256);
        b.replies[i] = (uint8_t)i;
    }
    for (size_t i = 0; i < MOST; i++) {
        if (random_below(8) != 0)
            b.requests[PONGULVESZ_PACKET * i] = 0x23;
        b.times[2 * i] = random_below(8) == 0 ? 0 : PONGULVESZ_SECOND * random_below(100);
        b.times[2 * i + 1] = b.times[2 * i] + random_below(9) - 1 + ((uint64_t)(random_below(8) == 0) << 63);
        b.numbers[i] = 0xD1;
    }
    b.requests_length = random_length(OCTETS);
    b.times_length = random_length(2 * MOST);
    b.replies_length = random_length(OCTETS);
    b.numbers_length = random_length(MOST);
    return b;
}

static size_t least(size_t a, size_t b) {
    return a < b ? a : b;
}

/* The block's replies and numbers, made one by one. */
static size_t reply_one_by_one(struct block *b) {
    size_t count = least(b->requests_length, b->replies_length) / PONGULVESZ_PACKET;
    count = least(count, least(b->times_length / 2, b->numbers_length));
    for (size_t i = 0; i < count; i++) {
        size_t at = PONGULVESZ_PACKET * i;
        b->numbers[i] = (uint8_t)pongulvesz_reply(b->synchronised, b->leap, b->precision, 0x47505300, 7, b->times[2 * i], b->times[2 * i + 1],
                                                  b->replies + at, PONGULVESZ_PACKET, b->requests + at, PONGULVESZ_PACKET);
        given[b->numbers[i]]++;
        requests++;
    }
    return count;
}

static void *copy_of(const void *octets, size_t length) {
    void *copy = malloc(length > 0 ? length : 1);
    if (copy == NULL)
        abort();
    return memcpy(copy, octets, length);
}

/* The same by the block's call, on copies; replies and numbers are copied back. */
static size_t reply_at_once(struct block *b) {
    uint8_t *r = copy_of(b->requests, b->requests_length), *replies = copy_of(b->replies, b->replies_length);
    uint64_t *times = copy_of(b->times, 8 * b->times_length);
    uint8_t *numbers = copy_of(b->numbers, b->numbers_length);
    size_t count = pongulvesz_reply_block(b->synchronised, b->leap, b->precision, 0x47505300, 7, r, b->requests_length, times, b->times_length,
                                          replies, b->replies_length, numbers, b->numbers_length);
    memcpy(b->requests, r, b->requests_length);
    memcpy(b->times, times, 8 * b->times_length);
    memcpy(b->replies, replies, b->replies_length);
    memcpy(b->numbers, numbers, b->numbers_length);
    free(r);
    free(times);
    free(replies);
    free(numbers);
    return count;
}

static int is_same(const struct block *a, const struct block *b) {
    return memcmp(a->requests, b->requests, sizeof a->requests) == 0 && memcmp(a->times, b->times, sizeof a->times) == 0 &&
           memcmp(a->replies, b->replies, sizeof a->replies) == 0 && memcmp(a->numbers, b->numbers, sizeof a->numbers) == 0;
}

int main(void) {
    static const uint8_t possible[] = {0, 14, 17, 21, 22, 23, 43};
    for (unsigned i = 0; i < BLOCKS; i++) {
        struct block one = random_block(), other = one;
        if (reply_one_by_one(&one) != reply_at_once(&other) || !is_same(&one, &other)) {
            fprintf(stderr, "block %u differs from its replies one by one\n", i);
            return 1;
        }
    }
    for (size_t i = 0; i < sizeof possible; i++)
        if (given[possible[i]] == 0) {
            fprintf(stderr, "no request of a block got the number %d\n", possible[i]);
            return 1;
        }
    printf("block: %d blocks of %u requests as one by one\n", BLOCKS, requests);
    return 0;
}
