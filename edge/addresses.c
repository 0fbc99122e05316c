#include "addresses.h"

#include <netdb.h>
#include <netinet/in.h>
#include <stdio.h>
#include <stdlib.h>
#include <string.h>

enum { LONGEST_NAME = 256 };

/* Where the port of a text begins, behind the colon, or NULL. More than one colon outside brackets is an address of
 * IPv6 without port. */
static const char *port_in(const char *text) {
    const char *colon = strrchr(text, ':');
    if (colon == NULL)
        return NULL;
    if (text[0] == '[')
        return colon[-1] == ']' ? colon + 1 : NULL;
    return strchr(text, ':') == colon ? colon + 1 : NULL;
}

/* The name of a text: what stands before the port, without brackets. Returns NULL, or in words what is wrong. */
static const char *name_of_text(const char *text, const char *port, char name[LONGEST_NAME]) {
    size_t length = port == NULL ? strlen(text) : (size_t)(port - text) - 1;
    if (text[0] == '[') {
        if (length < 2 || text[length - 1] != ']')
            return "a bracket is not closed";
        text++;
        length -= 2;
    }
    if (length >= LONGEST_NAME)
        return "the name is too long";
    memcpy(name, text, length);
    name[length] = '\0';
    return NULL;
}

/* Whether a port is one to five digits, up to 65535: getaddrinfo takes 65659 for 123, an empty port for 0, and a
 * sign. */
static int is_port(const char *port) {
    size_t length = strlen(port);
    return length >= 1 && length <= 5 && strspn(port, "0123456789") == length && strtoul(port, NULL, 10) <= 65535;
}

const char *address_of_text(const char *text, const char *default_port, int to_bind, struct address *address) {
    char name[LONGEST_NAME];
    const char *port = port_in(text);
    const char *wrong = name_of_text(text, port, name);
    if (wrong != NULL)
        return wrong;
    if (port != NULL && !is_port(port))
        return "the port is not a number from 0 to 65535";
    struct addrinfo hints = {.ai_socktype = SOCK_DGRAM, .ai_flags = AI_NUMERICSERV | (to_bind ? AI_PASSIVE : 0)};
    struct addrinfo *found;
    if (name[0] == '\0' && !to_bind)
        return "the name is empty";
    int error = getaddrinfo(name[0] == '\0' ? NULL : name, port == NULL ? default_port : port, &hints, &found);
    if (error != 0)
        return gai_strerror(error);
    memcpy(&address->socket_address, found->ai_addr, found->ai_addrlen);
    address->length = found->ai_addrlen;
    freeaddrinfo(found);
    return NULL;
}

void address_words(const struct address *address, char words[ADDRESS_WORDS]) {
    char host[56] = "?", port[8] = "?";
    getnameinfo((const struct sockaddr *)&address->socket_address, address->length, host, sizeof host, port,
                sizeof port, NI_NUMERICHOST | NI_NUMERICSERV | NI_DGRAM);
    const char *form = address->socket_address.ss_family == AF_INET6 ? "[%s]:%s" : "%s:%s";
    snprintf(words, ADDRESS_WORDS, form, host, port);
}

/* The octets of an address and its port, without what a socket address holds beside them. */
static size_t parts_of(const struct address *address, unsigned char parts[18]) {
    if (address->socket_address.ss_family == AF_INET6) {
        const struct sockaddr_in6 *six = (const struct sockaddr_in6 *)&address->socket_address;
        memcpy(parts, &six->sin6_port, 2);
        memcpy(parts + 2, &six->sin6_addr, 16);
        return 18;
    }
    const struct sockaddr_in *four = (const struct sockaddr_in *)&address->socket_address;
    memcpy(parts, &four->sin_port, 2);
    memcpy(parts + 2, &four->sin_addr, 4);
    return 6;
}

int same_address(const struct address *a, const struct address *b) {
    unsigned char first[18], second[18];
    size_t length = parts_of(a, first);
    return length == parts_of(b, second) && memcmp(first, second, length) == 0;
}
