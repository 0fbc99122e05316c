#include "endpoint.h"

#include "addresses.h"

#include <arpa/inet.h>
#include <netinet/in.h>
#include <stdio.h>
#include <string.h>

const char *endpoint_of_text(const char *text, struct endpoint *endpoint) {
    struct address address;
    const char *wrong = address_of_text(text, "0", 0, &address);
    if (wrong != NULL)
        return wrong;
    if (address.socket_address.ss_family == AF_INET6) {
        const struct sockaddr_in6 *six = (const struct sockaddr_in6 *)&address.socket_address;
        endpoint->width = 16;
        endpoint->port = ntohs(six->sin6_port);
        memcpy(endpoint->address, &six->sin6_addr, 16);
    } else {
        const struct sockaddr_in *four = (const struct sockaddr_in *)&address.socket_address;
        endpoint->width = 4;
        endpoint->port = ntohs(four->sin_port);
        memcpy(endpoint->address, &four->sin_addr, 4);
    }
    return NULL;
}

int same_host(const struct endpoint *a, const struct endpoint *b) {
    return a->width == b->width && memcmp(a->address, b->address, a->width) == 0;
}

int allows(const struct endpoint *wanted, const struct endpoint *endpoint) {
    if (wanted->width != 0 && !same_host(wanted, endpoint))
        return 0;
    return wanted->port == 0 || wanted->port == endpoint->port;
}

void endpoint_words(const struct endpoint *endpoint, char words[ENDPOINT_WORDS]) {
    if (inet_ntop(endpoint->width == 16 ? AF_INET6 : AF_INET, endpoint->address, words, ENDPOINT_WORDS) == NULL)
        snprintf(words, ENDPOINT_WORDS, "?");
}
