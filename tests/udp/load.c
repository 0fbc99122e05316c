/* load PORT SECONDS PID server|echo: keeps a window of requests in flight on each of several sockets to a port of
 * 127.0.0.1, and sends a new request for each valid reply. After a warm-up it counts for so many seconds, and prints:
 * valid replies, other datagrams, requests lost, seconds, seconds of processor time that the process PID took, and of
 * its own.
 *
 * The requests of a turn leave by one call, which the kernel parts into datagrams (UDP_SEGMENT): sending costs the load
 * less than replying costs any server, so that the server is what is measured.
 *
 * Valid is a reply of 48 octets with leap indicator 0 to 2, the request's version, mode 4, stratum 1 to 15, and as
 * originate the token of a request in flight on that socket; from an echo, the request itself. */
#include <arpa/inet.h>
#include <inttypes.h>
#include <netinet/udp.h>
#include <poll.h>
#include <stdint.h>
#include <stdio.h>
#include <stdlib.h>
#include <string.h>
#include <sys/socket.h>
#include <time.h>

enum { SOCKETS = 4, WINDOW = 32, PACKET = 48, REPLY_ROOM = 128, SILENCE_MS = 500 };
enum { ORIGINATE = 24, TRANSMIT = 40 };

struct window {
    uint64_t tokens[WINDOW]; /* of the request in flight in each slot; its low octet is the slot */
    uint8_t requests[WINDOW][PACKET], replies[WINDOW][REPLY_ROOM];
    struct iovec to_send[WINDOW], reply_parts[WINDOW];
    struct mmsghdr to_receive[WINDOW];
};

struct counts {
    uint64_t valid, other, lost;
};

static struct window windows[SOCKETS];
static struct pollfd sockets[SOCKETS];
static struct counts counts;
static int echo;

static void fail(const char *what) {
    perror(what);
    exit(1);
}

static double seconds_of(clockid_t clock) {
    struct timespec reading;
    if (clock_gettime(clock, &reading) != 0)
        fail("clock");
    return (double)reading.tv_sec + (double)reading.tv_nsec / 1e9;
}

static uint64_t number_at(const uint8_t *octets) {
    uint64_t number = 0;
    for (int i = 0; i < 8; i++)
        number = number << 8 | octets[i];
    return number;
}

static void set_token(struct window *window, unsigned slot, uint64_t token) {
    window->tokens[slot] = token;
    for (int i = 0; i < 8; i++)
        window->requests[slot][TRANSMIT + i] = (uint8_t)(token >> (56 - 8 * i));
}

static void open_window(struct window *window, struct pollfd *polled, uint16_t port, uint64_t first_token) {
    const int segment = PACKET;
    const struct sockaddr_in server = {
        .sin_family = AF_INET, .sin_port = htons(port), .sin_addr.s_addr = htonl(INADDR_LOOPBACK)};
    *polled = (struct pollfd){.fd = socket(AF_INET, SOCK_DGRAM, 0), .events = POLLIN};
    if (polled->fd < 0 || connect(polled->fd, (const struct sockaddr *)&server, sizeof server) != 0 ||
        setsockopt(polled->fd, IPPROTO_UDP, UDP_SEGMENT, &segment, sizeof segment) != 0)
        fail("socket");
    for (unsigned slot = 0; slot < WINDOW; slot++) {
        window->requests[slot][0] = 0x23; /* version 4, mode 3 */
        set_token(window, slot, first_token << 8 | slot);
        window->reply_parts[slot] = (struct iovec){window->replies[slot], REPLY_ROOM};
        window->to_receive[slot].msg_hdr = (struct msghdr){.msg_iov = &window->reply_parts[slot], .msg_iovlen = 1};
    }
}

/* The slot of the request that a datagram answers validly, or WINDOW. */
static unsigned answered_slot(const struct window *window, const uint8_t *reply, unsigned length) {
    const uint64_t token = number_at(reply + (echo ? TRANSMIT : ORIGINATE));
    const unsigned slot = (unsigned)(token & 0xFF);
    if (length != PACKET || slot >= WINDOW || window->tokens[slot] != token)
        return WINDOW;
    if (echo)
        return reply[0] == 0x23 ? slot : WINDOW;
    return reply[0] >> 6 != 3 && (reply[0] & 0x3F) == 0x24 && reply[1] >= 1 && reply[1] <= 15 ? slot : WINDOW;
}

static void send_requests(int to, struct iovec *parts, unsigned count) {
    const struct msghdr message = {.msg_iov = parts, .msg_iovlen = count};
    if (count > 0 && sendmsg(to, &message, 0) != (ssize_t)(count * PACKET))
        fail("sendmsg");
}

/* Takes the replies of one socket, and sends as many new requests as were valid. Returns whether there was anything. */
static int turn(struct window *window, int from) {
    int received = recvmmsg(from, window->to_receive, WINDOW, MSG_DONTWAIT, NULL);
    unsigned count = 0;
    for (int i = 0; i < received; i++) {
        unsigned slot = answered_slot(window, window->replies[i], window->to_receive[i].msg_len);
        if (slot == WINDOW) {
            counts.other++;
            continue;
        }
        set_token(window, slot, window->tokens[slot] + 0x100);
        window->to_send[count++] = (struct iovec){window->requests[slot], PACKET};
    }
    counts.valid += count;
    send_requests(from, window->to_send, count);
    return received > 0;
}

/* Sends the whole window, each request with a new token: at the start, and where replies stayed away. */
static void send_window(struct window *window, int to) {
    for (unsigned slot = 0; slot < WINDOW; slot++) {
        set_token(window, slot, window->tokens[slot] + 0x100);
        window->to_send[slot] = (struct iovec){window->requests[slot], PACKET};
    }
    send_requests(to, window->to_send, WINDOW);
}

static void run_until(double end) {
    while (seconds_of(CLOCK_MONOTONIC) < end) {
        int any = 0;
        for (int i = 0; i < SOCKETS; i++)
            any |= turn(&windows[i], sockets[i].fd);
        if (any || poll(sockets, SOCKETS, SILENCE_MS) > 0)
            continue;
        for (int i = 0; i < SOCKETS; i++)
            send_window(&windows[i], sockets[i].fd);
        counts.lost += SOCKETS * WINDOW;
    }
}

int main(int argc, char **argv) {
    clockid_t server_clock;
    if (argc != 5 || clock_getcpuclockid((pid_t)atol(argv[3]), &server_clock) != 0) {
        fprintf(stderr, "load PORT SECONDS PID server|echo\n");
        return 2;
    }
    echo = strcmp(argv[4], "echo") == 0;
    for (unsigned i = 0; i < SOCKETS; i++) {
        open_window(&windows[i], &sockets[i], (uint16_t)atoi(argv[1]), i + 1);
        send_window(&windows[i], sockets[i].fd);
    }
    run_until(seconds_of(CLOCK_MONOTONIC) + 0.2);
    counts = (struct counts){0, 0, 0};
    const double start = seconds_of(CLOCK_MONOTONIC), server_start = seconds_of(server_clock);
    const double own_start = seconds_of(CLOCK_PROCESS_CPUTIME_ID);
    run_until(start + atof(argv[2]));
    printf("%" PRIu64 " %" PRIu64 " %" PRIu64 " %.9f %.9f %.9f\n", counts.valid, counts.other, counts.lost,
           seconds_of(CLOCK_MONOTONIC) - start, seconds_of(server_clock) - server_start,
           seconds_of(CLOCK_PROCESS_CPUTIME_ID) - own_start);
    return 0;
}
