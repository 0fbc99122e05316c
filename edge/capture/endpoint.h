/* The address and port of one end of a datagram. */
#ifndef CAPTURE_ENDPOINT_H
#define CAPTURE_ENDPOINT_H

#include <stdint.h>

enum { ENDPOINT_WORDS = 48 };

struct endpoint {
    uint8_t address[16];
    uint8_t width; /* of the address in octets: 4, 16, or 0 for any address */
    uint16_t port; /* 0 for any port */
};

/* The endpoint of ADDRESS or ADDRESS:PORT. Returns NULL, or in words why there is none. */
const char *endpoint_of_text(const char *text, struct endpoint *endpoint);

int same_host(const struct endpoint *a, const struct endpoint *b);

/* Whether the endpoint is one that `wanted` allows. */
int allows(const struct endpoint *wanted, const struct endpoint *endpoint);

/* The address in digits, without the port. */
void endpoint_words(const struct endpoint *endpoint, char words[ENDPOINT_WORDS]);

#endif
