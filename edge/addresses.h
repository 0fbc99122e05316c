/* Addresses as a user writes them: NAME, NAME:PORT, 192.0.2.1:PORT, [2001:db8::1]:PORT, 2001:db8::1. */
#ifndef EDGE_ADDRESSES_H
#define EDGE_ADDRESSES_H

#include <stddef.h>
#include <sys/socket.h>

struct address {
    struct sockaddr_storage socket_address;
    socklen_t length;
};

/* Room for an address in words, its terminating zero included. */
#define ADDRESS_WORDS 72

/* The address of a text, with this port where the text has none. `to_bind` takes an empty name for every address of
 * the machine, of IPv4. Returns NULL, or in words why there is none. */
const char *address_of_text(const char *text, const char *default_port, int to_bind, struct address *address);

/* The address in digits, with its port. */
void address_words(const struct address *address, char words[ADDRESS_WORDS]);

/* Whether both are the same address and port. */
int same_address(const struct address *a, const struct address *b);

#endif
