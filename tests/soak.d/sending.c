#include "sending.h"

#include "clocks.h"
#include "treatment.h"

#include <stdio.h>
#include <stdlib.h>

/* A binary heap: an entry is due no later than the two at twice its number plus one and plus two. */
static struct sending **heap;
static size_t count, room;

static int is_later(size_t a, size_t b) {
    return heap[a]->due > heap[b]->due;
}

static void swap(size_t a, size_t b) {
    struct sending *kept = heap[a];
    heap[a] = heap[b];
    heap[b] = kept;
}

static int make_room(void) {
    if (count < room)
        return 1;
    size_t more = room == 0 ? 1024 : 2 * room;
    struct sending **larger = realloc(heap, more * sizeof *larger);
    if (larger == NULL)
        return 0;
    heap = larger;
    room = more;
    return 1;
}

void send_later(struct sending *sending, uint64_t delay) {
    struct sending *copy = malloc(sizeof *copy);
    if (copy == NULL || !make_room()) {
        fputs("soak-relay: no memory\n", stderr);
        exit(1);
    }
    sending->due = steady_nanoseconds() + delay;
    *copy = *sending;
    heap[count] = copy;
    for (size_t at = count++; at > 0 && is_later((at - 1) / 2, at); at = (at - 1) / 2)
        swap((at - 1) / 2, at);
}

uint64_t first_due(void) {
    return count == 0 ? UINT64_MAX : heap[0]->due;
}

/* Of an entry and the two below it the one that is due first. */
static size_t earliest(size_t at) {
    size_t first = at;
    if (2 * at + 1 < count && is_later(first, 2 * at + 1))
        first = 2 * at + 1;
    if (2 * at + 2 < count && is_later(first, 2 * at + 2))
        first = 2 * at + 2;
    return first;
}

static struct sending *take_first(void) {
    struct sending *first = heap[0];
    size_t at = 0, next;
    heap[0] = heap[--count];
    while ((next = earliest(at)) != at) {
        swap(at, next);
        at = next;
    }
    return first;
}

void send_now(int socket, const struct address *to, const struct packet *packet) {
    const struct sockaddr *address = to->length == 0 ? NULL : (const struct sockaddr *)&to->socket_address;
    if (sendto(socket, packet->octets, packet->length, 0, address, to->length) < 0)
        counts.errors++;
}

void send_due(uint64_t now) {
    while (first_due() <= now) {
        struct sending *sending = take_first();
        sending->record.went = system_nanoseconds();
        write_record(&sending->record);
        send_now(sending->socket, &sending->to, &sending->packet);
        free(sending);
    }
}

uint64_t system_nanoseconds(void) {
    struct timespec reading = {0, 0};
    clock_gettime(CLOCK_REALTIME, &reading);
    return (uint64_t)reading.tv_sec * 1000000000 + (uint64_t)reading.tv_nsec;
}
