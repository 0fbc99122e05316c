#include "flood.h"

#include "passage.h"
#include "sending.h"
#include "treatment.h"

enum { FROM_SERVER = 9000 }; /* in ten thousand: the others come from a stranger's address */

static int to_server = -1, to_queries = -1;
static uint64_t due = UINT64_MAX;

const char *open_flood(const struct address *server) {
    to_server = socket_beside(server);
    to_queries = socket_beside(server);
    if (to_server < 0 || to_queries < 0 ||
        connect(to_server, (const struct sockaddr *)&server->socket_address, server->length) != 0)
        return "no sockets for floods";
    if (treatment.flood_interval != 0)
        due = 0;
    return NULL;
}

uint64_t next_burst(void) {
    return due;
}

int flood_socket(void) {
    return to_server;
}

void flood_query(const struct link *link) {
    struct packet packet;
    uint64_t now = server_clock(link), packets = 1 + random_below(treatment.burst);
    for (uint64_t i = 0; i < packets; i++) {
        forge_reply(&packet, &link->earlier, link->latest, now);
        send_now(happens(FROM_SERVER) ? link->query_side : to_queries, &link->query, &packet);
    }
    counts.flooded_queries += packets;
}

void flood_server(uint64_t now) {
    static const struct address connected = {.length = 0};
    struct packet packet;
    uint64_t packets = 1 + random_below(treatment.burst);
    for (uint64_t i = 0; i < packets; i++) {
        forge_request(&packet);
        send_now(to_server, &connected, &packet);
    }
    counts.flooded_server += packets;
    due = now + random_below(2 * treatment.flood_interval * 1000);
}

void receive_flood_replies(void) {
    struct packet packet;
    while (recv(to_server, packet.octets, sizeof packet.octets, 0) >= 0)
        counts.flood_replies++;
}
