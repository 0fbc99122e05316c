#include "links.h"

#include <inttypes.h>
#include <stdio.h>

struct link links[MOST_LINKS];
size_t link_count;

int socket_beside(const struct address *address) {
    int family = address->socket_address.ss_family, room = 4 << 20;
    struct address here;
    if (address_of_text(family == AF_INET6 ? "[::1]:0" : "127.0.0.1:0", "0", 1, &here) != NULL)
        return -1;
    int made = socket(family, SOCK_DGRAM | SOCK_NONBLOCK | SOCK_CLOEXEC, 0);
    if (made < 0 || bind(made, (const struct sockaddr *)&here.socket_address, here.length) != 0)
        return -1;
    setsockopt(made, SOL_SOCKET, SO_RCVBUF, &room, sizeof room);
    return made;
}

static const char *add_link(uint64_t constant, uint64_t give_up, const struct address *server) {
    struct address here = {.length = sizeof here.socket_address};
    char words[ADDRESS_WORDS];
    if (link_count == MOST_LINKS)
        return "too many links";
    struct link *link = &links[link_count];
    link->number = (uint16_t)link_count++;
    link->constant = constant;
    link->give_up = give_up;
    link->query_side = socket_beside(server);
    link->server_side = socket_beside(server);
    if (link->query_side < 0 || link->server_side < 0 ||
        connect(link->server_side, (const struct sockaddr *)&server->socket_address, server->length) != 0 ||
        getsockname(link->query_side, (struct sockaddr *)&here.socket_address, &here.length) != 0)
        return "no sockets for a link";
    address_words(&here, words);
    printf("link %u %s\n", link->number, words);
    return NULL;
}

const char *add_query(const char *text, const struct address *server) {
    int64_t constant;
    uint64_t microseconds;
    unsigned servers;
    const char *wrong = NULL;
    if (sscanf(text, "%" SCNd64 ",%" SCNu64 ",%u", &constant, &microseconds, &servers) != 3)
        return "a query is CONSTANT,MICROSECONDS,SERVERS";
    for (unsigned i = 0; i < servers && wrong == NULL; i++)
        wrong = add_link((uint64_t)constant, microseconds * 1000, server);
    return wrong;
}

void keep_request(struct link *link, const struct request *request) {
    link->requests[link->request_count % REQUESTS_KEPT] = *request;
    link->request_count++;
}

const struct request *request_of(const struct link *link, uint64_t token) {
    size_t kept = link->request_count < REQUESTS_KEPT ? link->request_count : REQUESTS_KEPT;
    for (size_t i = 1; i <= kept; i++) {
        const struct request *request = &link->requests[(link->request_count - i) % REQUESTS_KEPT];
        if (request->token == token)
            return request;
    }
    return NULL;
}
