#include "stream.h"

#include <stdlib.h>
#include <string.h>

enum { MODE_CLIENT = 3 };

int is_of_port(const struct datagram *datagram, uint16_t port) {
    return datagram->source.port == port || datagram->destination.port == port;
}

static int has_mode_client(struct octets octets) {
    return octets.length > 0 && (octets.first[0] & 7) == MODE_CLIENT;
}

int is_request(enum direction direction, struct octets octets) {
    return direction == FROM_CLIENT && octets.length >= PACKET && has_mode_client(octets);
}

/* The server is the end at its port; where both ends are at it, the mode tells. */
static enum direction direction_of(const struct datagram *datagram, uint16_t port) {
    if (datagram->source.port != port)
        return FROM_CLIENT;
    if (datagram->destination.port != port)
        return FROM_SERVER;
    return has_mode_client(datagram->payload) ? FROM_CLIENT : FROM_SERVER;
}

int is_of_pair(const struct pair *pair, const struct packet *packet) {
    return same_host(&pair->client, &packet->client) && same_host(&pair->server, &packet->server);
}

static struct pair *pair_of(struct stream *stream, const struct packet *packet) {
    for (size_t i = 0; i < stream->pair_count; i++)
        if (is_of_pair(&stream->pairs[i], packet))
            return &stream->pairs[i];
    return NULL;
}

static void count_request(struct stream *stream, const struct packet *packet) {
    struct pair *pair = pair_of(stream, packet);
    if (pair != NULL) {
        pair->requests++;
    } else if (stream->pair_count < MOST_PAIRS) {
        stream->pairs[stream->pair_count++] = (struct pair){packet->client, packet->server, 1, 0};
    } else {
        stream->beyond++;
    }
}

static void count_from_server(struct stream *stream, const struct packet *packet) {
    struct pair *pair = pair_of(stream, packet);
    if (pair != NULL)
        pair->from_server++;
}

/* Room for so many more elements behind the first `count`; the array as it was, and 0, where there is none. */
static int make_room(void **array, size_t *room, size_t count, size_t more, size_t size) {
    if (count + more <= *room)
        return 1;
    size_t wanted = 2 * (count + more);
    void *larger = realloc(*array, wanted * size);
    if (larger == NULL)
        return 0;
    *array = larger;
    *room = wanted;
    return 1;
}

static int keep(struct stream *stream, struct packet packet, struct octets octets) {
    size_t kept = octets.length < LONGEST_PACKET ? octets.length : LONGEST_PACKET;
    void *packets = stream->packets, *all = stream->octets;
    int room = make_room(&packets, &stream->packet_room, stream->packet_count, 1, sizeof packet) &&
               make_room(&all, &stream->octet_room, stream->octet_count, LONGEST_PACKET, 1);
    stream->packets = packets;
    stream->octets = all;
    if (!room)
        return 0;
    packet.length = octets.length;
    packet.at = stream->octet_count;
    memcpy(stream->octets + packet.at, octets.first, kept);
    stream->octet_count += kept;
    stream->packets[stream->packet_count++] = packet;
    return 1;
}

int take_datagram(struct stream *stream, const struct options *options, const struct datagram *datagram,
                  uint64_t uptime, uint64_t clock) {
    enum direction direction = direction_of(datagram, options->server.port);
    struct packet packet = {.direction = direction, .uptime = uptime, .clock = clock};
    packet.client = direction == FROM_CLIENT ? datagram->source : datagram->destination;
    packet.server = direction == FROM_CLIENT ? datagram->destination : datagram->source;
    if (!allows(&options->client, &packet.client) || !allows(&options->server, &packet.server))
        return 1;
    if (is_request(direction, datagram->payload))
        count_request(stream, &packet);
    else if (direction == FROM_SERVER)
        count_from_server(stream, &packet);
    /* where there are two pairs, no frame will be written */
    return stream->pair_count > 1 ? 1 : keep(stream, packet, datagram->payload);
}

const struct pair *only_pair(const struct stream *stream) {
    return stream->pair_count == 1 ? &stream->pairs[0] : NULL;
}

void free_stream(struct stream *stream) {
    free(stream->packets);
    free(stream->octets);
}
