/* Control messages: what the kernel tells of a request beside its octets, and what it is told of a reply. */
#ifndef SERVER_CONTROL_H
#define SERVER_CONTROL_H

#include <netinet/in.h>
#include <stdint.h>
#include <sys/socket.h>
#include <time.h>

/* Room for the kernel's timestamp and the destination of one request, or for the source of one reply. */
union control {
    size_t aligned; /* as the kernel aligns control messages */
    uint8_t octets[CMSG_SPACE(sizeof(struct timespec)) + CMSG_SPACE(sizeof(struct in6_pktinfo))];
};

/* Has the kernel tell when each request came in and, of a socket bound to every address, to which one it came. */
void ask_for_control(int socket, int family, int every_address);

/* When the request came in by the kernel's timestamp, or 0 where it has none. */
uint64_t kernel_timestamp(struct msghdr *request);

/* Has the reply leave from the address that the request came to, where the kernel told it. */
void set_source(struct msghdr *reply, union control *control, struct msghdr *request);

#endif
