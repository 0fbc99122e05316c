#include "sockets.h"

#include "addresses.h"
#include "control.h"

#include <errno.h>
#include <netinet/in.h>
#include <stdio.h>
#include <string.h>
#include <unistd.h>

static int is_every_address(const struct address *address) {
    if (address->socket_address.ss_family == AF_INET6)
        return IN6_IS_ADDR_UNSPECIFIED(&((const struct sockaddr_in6 *)&address->socket_address)->sin6_addr);
    return ((const struct sockaddr_in *)&address->socket_address)->sin_addr.s_addr == htonl(INADDR_ANY);
}

/* A socket bound to the address, or -1 with errno. IPv6's is for IPv6 alone, so that IPv4's may stand beside it. */
static int bound_socket(const struct address *address) {
    const int family = address->socket_address.ss_family, on = 1;
    int opened = socket(family, SOCK_DGRAM | SOCK_CLOEXEC, IPPROTO_UDP);
    if (opened < 0)
        return -1;
    ask_for_control(opened, family, is_every_address(address));
    if ((family == AF_INET6 && setsockopt(opened, IPPROTO_IPV6, IPV6_V6ONLY, &on, sizeof on) != 0) ||
        bind(opened, (const struct sockaddr *)&address->socket_address, address->length) != 0) {
        const int error = errno;
        close(opened);
        errno = error;
        return -1;
    }
    return opened;
}

/* The address as it was bound, where port 0 has become a real one. */
static void print_listening(int opened) {
    struct address address = {.length = sizeof address.socket_address};
    char words[ADDRESS_WORDS];
    getsockname(opened, (struct sockaddr *)&address.socket_address, &address.length);
    address_words(&address, words);
    printf("listening on %s\n", words);
    fflush(stdout);
}

/* Opens the socket of one address. Returns 0, or errno, with the reason in words on standard error. */
static int open_one(struct polled *polled, const char *text) {
    struct address address;
    const char *wrong = address_of_text(text, "123", 1, &address);
    int error = wrong == NULL ? 0 : EINVAL;
    if (wrong == NULL) {
        int opened = bound_socket(&address);
        if (opened >= 0) {
            polled->descriptors[polled->count++] = (struct pollfd){.fd = opened, .events = POLLIN};
            print_listening(opened);
            return 0;
        }
        error = errno;
        wrong = strerror(error);
    }
    fprintf(stderr, "pongulvesz-server: cannot listen on %s: %s\n", text, wrong);
    return error;
}

/* Opens a socket for every address of IPv4 and one for every address of IPv6, or of the one that the machine has. */
static int open_every(struct polled *polled, const char *colon_and_port) {
    char four[32], six[32];
    snprintf(four, sizeof four, "0.0.0.0%s", colon_and_port);
    snprintf(six, sizeof six, "[::]%s", colon_and_port);
    int error_four = open_one(polled, four);
    if (error_four != 0 && error_four != EAFNOSUPPORT)
        return 0;
    int error_six = open_one(polled, six);
    return error_six == 0 || (error_six == EAFNOSUPPORT && error_four == 0);
}

int open_sockets(struct polled *polled, const struct settings *settings) {
    if (settings->address_count == 0)
        return open_every(polled, ":123");
    for (int i = 0; i < settings->address_count; i++) {
        const char *text = settings->addresses[i];
        int every = text[0] == ':' && strchr(text + 1, ':') == NULL;
        if (every ? !open_every(polled, text) : open_one(polled, text) != 0)
            return 0;
    }
    return 1;
}
