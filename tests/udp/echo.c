/* echo: the limit that the benchmark measures servers against. Listens on a port of 127.0.0.1 that the kernel chooses
 * and says which, takes datagrams in batches as the server does, and sends each one's first 48 octets back. It checks
 * nothing, reads no clock, and is ended by a signal. */
#include <arpa/inet.h>
#include <poll.h>
#include <stdint.h>
#include <stdio.h>
#include <string.h>
#include <sys/socket.h>

enum { BATCH = 64, PACKET = 48 };

static uint8_t octets[BATCH][PACKET];
static struct sockaddr_in clients[BATCH];
static struct iovec parts[BATCH];
static struct mmsghdr messages[BATCH];

static int fail(const char *what) {
    perror(what);
    return 1;
}

static void make_ready(void) {
    for (int i = 0; i < BATCH; i++) {
        parts[i] = (struct iovec){octets[i], PACKET};
        messages[i].msg_hdr = (struct msghdr){
            .msg_name = &clients[i], .msg_namelen = sizeof clients[i], .msg_iov = &parts[i], .msg_iovlen = 1};
    }
}

int main(void) {
    struct sockaddr_in address = {.sin_family = AF_INET, .sin_addr.s_addr = htonl(INADDR_LOOPBACK)};
    socklen_t length = sizeof address;
    struct pollfd polled = {.fd = socket(AF_INET, SOCK_DGRAM, 0), .events = POLLIN};
    if (polled.fd < 0 || bind(polled.fd, (struct sockaddr *)&address, length) != 0 ||
        getsockname(polled.fd, (struct sockaddr *)&address, &length) != 0)
        return fail("socket");
    printf("listening on 127.0.0.1:%u\n", (unsigned)ntohs(address.sin_port));
    fflush(stdout);
    make_ready();
    for (;;) {
        if (poll(&polled, 1, -1) < 0)
            return fail("poll");
        int received = recvmmsg(polled.fd, messages, BATCH, MSG_DONTWAIT, NULL);
        if (received > 0)
            sendmmsg(polled.fd, messages, (unsigned)received, MSG_DONTWAIT);
    }
}
