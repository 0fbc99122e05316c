#include "frames.h"

#include <stdio.h>

/* The replay's client asks with this version, and has no alternate server. */
enum { REPLAY_VERSION = 4, NO_ALTERNATE = 0 };

enum { ASK = 0xA1, ARRIVAL = 0xA2, GIVE_UP = 0xA3, TRANSMIT = 40 };

/* The replay's client, kept here by the same archive to know whether it waits, and what it will answer. */
struct replay {
    uint8_t image[PONGULVESZ_IMAGE];
    const struct options *options;
    struct frames *frames;
};

static int is_waiting(const struct replay *replay) {
    return pongulvesz_image_phase(replay->image) == PONGULVESZ_WAITING;
}

static void put_octets(const uint8_t *octets, size_t length) {
    static const char digits[] = "0123456789ABCDEF";
    for (size_t i = 0; i < length; i++) {
        putchar(digits[octets[i] >> 4]);
        putchar(digits[octets[i] & 0x0F]);
    }
}

static void put_frame(unsigned kind, uint64_t uptime, uint64_t clock, const uint8_t *octets, size_t length) {
    printf("%02X%016llX%016llX", kind, (unsigned long long)uptime, (unsigned long long)clock);
    put_octets(octets, length);
    putchar('\n');
}

static void count_answer(struct replay *replay, uint32_t number, uint64_t *taken) {
    if (number == 0)
        (*taken)++;
    else if (number < NUMBERS)
        replay->frames->refused[number]++;
}

static uint32_t try_ask(struct replay *replay, const struct packet *packet, uint64_t token) {
    uint8_t request[PONGULVESZ_PACKET];
    return pongulvesz_ask(replay->image, sizeof replay->image, request, sizeof request, REPLAY_VERSION, packet->clock,
                          token, packet->uptime + replay->frames->moved);
}

/* Moves uptimes, this one's and all behind it, so that this one is not before the wanted uptime. */
static void spread(struct replay *replay, const struct packet *packet, uint64_t wanted) {
    if (packet->uptime + replay->frames->moved < wanted)
        replay->frames->moved = wanted - packet->uptime;
}

/* The capture does not tell when a client stops waiting. A request that is still unanswered when the next is sent was
 * given up at some time before; the frame has the uptime and the clock reading of that next request. */
static void give_up_before(struct replay *replay, const struct packet *packet) {
    if (!is_waiting(replay))
        return;
    uint64_t last_ask = pongulvesz_image_uptime(replay->image);
    if (replay->options->spread)
        spread(replay, packet, last_ask + replay->options->give_up);
    uint64_t uptime = packet->uptime + replay->frames->moved;
    if (uptime - last_ask < replay->options->give_up)
        return;
    put_frame(GIVE_UP, uptime, packet->clock, NULL, 0);
    replay->frames->give_ups++;
    uint32_t number = pongulvesz_give_up(replay->image, sizeof replay->image, uptime);
    count_answer(replay, number, &replay->frames->given_up);
}

static void write_ask(struct replay *replay, const struct packet *packet, const uint8_t *octets) {
    uint64_t token = number_at(octets + TRANSMIT, 8, BIG_ENDIAN_ORDER);
    give_up_before(replay, packet);
    uint32_t number = try_ask(replay, packet, token);
    if (number == PONGULVESZ_ASKED_TOO_SOON && replay->options->spread) {
        uint64_t due = 0;
        pongulvesz_ask_due(replay->image, sizeof replay->image, &due);
        spread(replay, packet, due);
        number = try_ask(replay, packet, token);
    }
    put_frame(ASK, packet->uptime + replay->frames->moved, packet->clock, octets + TRANSMIT, 8);
    replay->frames->asks++;
    replay->frames->other_versions += (octets[0] >> 3 & 7) != REPLAY_VERSION;
    count_answer(replay, number, &replay->frames->asked);
}

static void write_arrival(struct replay *replay, const struct packet *packet, const uint8_t *octets) {
    struct frames *frames = replay->frames;
    uint8_t answer[PONGULVESZ_ANSWER];
    if (packet->length > LONGEST_PACKET) {
        frames->too_long++;
        return;
    }
    put_frame(ARRIVAL, packet->uptime + frames->moved, packet->clock, octets, packet->length);
    frames->arrivals++;
    uint32_t number = pongulvesz_arrival(replay->image, sizeof replay->image, answer, sizeof answer, packet->clock,
                                         NO_ALTERNATE, octets, packet->length);
    count_answer(replay, number, number == 0 && pongulvesz_answer_kind(answer) == PONGULVESZ_KISS ? &frames->kisses : &frames->accepted);
}

void write_frames(const struct stream *stream, const struct pair *pair, const struct options *options,
                  struct frames *frames) {
    struct replay replay = {.options = options, .frames = frames};
    *frames = (struct frames){0};
    for (size_t i = 0; i < stream->packet_count; i++) {
        const struct packet *packet = &stream->packets[i];
        const uint8_t *octets = stream->octets + packet->at;
        if (!is_of_pair(pair, packet))
            continue;
        if (packet->direction == FROM_SERVER)
            write_arrival(&replay, packet, octets);
        else if (is_request(packet->direction, (struct octets){octets, packet->length}))
            write_ask(&replay, packet, octets);
        else
            frames->no_requests++;
    }
}
