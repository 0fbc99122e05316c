/* The socket of one request. */
#ifndef QUERY_SOCKETS_H
#define QUERY_SOCKETS_H

#include <addresses.h>
#include <stdint.h>
#include <time.h>

/* The archive refuses what is longer by 7; one octet more is enough to see that it is. */
enum { LONGEST_PACKET = 1024 };

struct received {
    uint8_t octets[LONGEST_PACKET + 1];
    size_t length;
    struct timespec arrived; /* as the system's clock read */
};

enum reception { RECEIVED, NOTHING, RECEIVE_FAILED };

/* A socket with a source port of its own, connected, so that the kernel drops what comes from anywhere else. Returns -1
 * with errno where there is none. */
int open_socket(const struct address *server);

/* Takes the next packet, without waiting. */
enum reception receive_packet(int socket, struct received *received);

#endif
