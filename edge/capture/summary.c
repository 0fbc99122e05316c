#include "summary.h"

#include <inttypes.h>
#include <stdio.h>

/* A line with a count, where there is anything to count. */
static void say(uint64_t count, const char *words) {
    if (count > 0)
        fprintf(stderr, "%8" PRIu64 " %s\n", count, words);
}

void say_counts(const struct counts *counts, uint16_t port) {
    fprintf(stderr, "%8" PRIu64 " records, %" PRIu64 " of them whole datagrams of port %u\n", counts->records,
            counts->found[FOUND_DATAGRAM], (unsigned)port);
    say(counts->found[FOUND_FRAGMENT], "left out: fragments of datagrams");
    say(counts->found[FOUND_CUT], "left out: cut by the snap length of the capture");
    say(counts->found[FOUND_DAMAGED], "left out: damaged, with lengths that contradict each other");
    say(counts->found[FOUND_UNKNOWN_LINK], "left out: of a link type that this program does not read");
    say(counts->time_refused, "left out: captured at a time that the archive refuses, as outside 1968 to 2104");
    say(counts->without_time, "left out: packets in blocks of pcapng that have no time or are out of use");
    say(counts->went_back, "captured at a time before that of the record before: the uptime stays there");
}

static void say_pair(const struct pair *pair) {
    char client[ENDPOINT_WORDS], server[ENDPOINT_WORDS];
    endpoint_words(&pair->client, client);
    endpoint_words(&pair->server, server);
    fprintf(stderr, "  --client %s --server %s: requests %" PRIu64 ", packets from the server %" PRIu64 "\n", client,
            server, pair->requests, pair->from_server);
}

void say_pairs(const struct stream *stream, const struct options *options) {
    fprintf(stderr, "pongulvesz-capture: %s: ", options->file);
    if (stream->pair_count == 0) {
        int chosen = options->client.width != 0 || options->server.width != 0;
        fprintf(stderr, "there is no request to port %u%s\n", (unsigned)options->server.port,
                chosen ? " between the chosen addresses" : "");
        return;
    }
    fprintf(stderr, "%zu pairs of client and server; choose one\n", stream->pair_count);
    for (size_t i = 0; i < stream->pair_count; i++)
        say_pair(&stream->pairs[i]);
    say(stream->beyond, "requests of further pairs");
}

static void say_refusals(const struct frames *frames) {
    for (uint32_t number = 1; number < NUMBERS; number++)
        if (frames->refused[number] > 0)
            fprintf(stderr, "%8" PRIu64 " refused by %" PRIu32 ": %s\n", frames->refused[number], number,
                    pongulvesz_words(number));
}

void say_frames(const struct frames *frames, const struct counts *counts, const struct options *options) {
    uint64_t of_pair = frames->asks + frames->arrivals + frames->no_requests + frames->too_long;
    say(counts->found[FOUND_DATAGRAM] - of_pair, "left out: between other addresses or ports");
    say(frames->no_requests, "left out: packets from the client that are no requests of mode 3");
    say(frames->too_long, "left out: packets from the server of more than 1024 octets, which no frame holds");
    fprintf(stderr, "%8" PRIu64 " frames written: asks %" PRIu64 ", arrivals %" PRIu64 ", give-ups %" PRIu64 "\n",
            frames->asks + frames->arrivals + frames->give_ups, frames->asks, frames->arrivals, frames->give_ups);
    say(frames->other_versions, "asks of another version than the replay's, 4: it refuses their replies by 11");
    if (options->spread)
        fprintf(stderr, "%8" PRIu64 " seconds is what the last uptime was moved by\n", frames->moved);
    fputs("What the archive answers to these frames:\n", stderr);
    say(frames->asked, "asks not refused");
    say(frames->accepted, "replies accepted");
    say(frames->kisses, "kisses");
    say(frames->given_up, "give-ups not refused");
    say_refusals(frames);
}
