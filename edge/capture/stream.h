/* Which client asks which server in a capture, and the packets that are kept until that is known. */
#ifndef CAPTURE_STREAM_H
#define CAPTURE_STREAM_H

#include "datagram.h"
#include "options.h"

/* The longest packet that a frame of the replay has, and the shortest that is a request. */
enum { LONGEST_PACKET = 1024, PACKET = 48, MOST_PAIRS = 256 };

enum direction { FROM_CLIENT, FROM_SERVER };

/* A packet with the client and the server that it is between. */
struct packet {
    struct endpoint client, server;
    enum direction direction;
    uint64_t uptime; /* whole seconds */
    uint64_t clock;  /* the timestamp of its capture */
    size_t length;
    size_t at; /* where its octets begin among those that are kept, the first 1024 at most */
};

/* A client and a server with a request between them; the counts begin at the first. */
struct pair {
    struct endpoint client, server;
    uint64_t requests, from_server;
};

struct stream {
    struct pair pairs[MOST_PAIRS];
    size_t pair_count;
    uint64_t beyond; /* requests of further pairs, for which there is no room */
    struct packet *packets;
    size_t packet_count, packet_room;
    uint8_t *octets;
    size_t octet_count, octet_room;
};

/* Whether one end of the datagram is at the server's port. */
int is_of_port(const struct datagram *datagram, uint16_t port);

/* Whether a packet of this direction is a request: of mode 3, and with a transmit timestamp. */
int is_request(enum direction direction, struct octets octets);

int is_of_pair(const struct pair *pair, const struct packet *packet);

/* Takes a datagram that is_of_port, where the options allow its two ends. Returns 0 where memory is missing. */
int take_datagram(struct stream *stream, const struct options *options, const struct datagram *datagram,
                  uint64_t uptime, uint64_t clock);

/* The pair, or NULL where there is none or more than one. */
const struct pair *only_pair(const struct stream *stream);

void free_stream(struct stream *stream);

#endif
