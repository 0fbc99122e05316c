#include "waiting.h"

#include "clocks.h"
#include "flood.h"
#include "overflow.h"
#include "passage.h"
#include "sending.h"
#include "treatment.h"

#include <errno.h>
#include <poll.h>
#include <sys/epoll.h>

enum { AT_ONCE = 64, BETWEEN_WATCHES = 20000000, LAST_RECEIVING = 200000000 }; /* packets or sockets; nanoseconds */

static int watched = -1;

/* What stands for a socket: twice the number of its link, and one more on the side of the server. */
static int watch(int socket, uint32_t number) {
    struct epoll_event event = {.events = EPOLLIN, .data = {.u32 = number}};
    return epoll_ctl(watched, EPOLL_CTL_ADD, socket, &event);
}

const char *watch_sockets(void) {
    int failed = 0;
    watched = epoll_create1(EPOLL_CLOEXEC);
    for (uint32_t i = 0; i < link_count; i++)
        failed |= watch(links[i].query_side, 2 * i) | watch(links[i].server_side, 2 * i + 1);
    failed |= watch(flood_socket(), 2 * MOST_LINKS);
    return failed ? "the sockets cannot be watched" : NULL;
}

static void receive_requests(struct link *link) {
    struct packet packet;
    struct address from;
    for (int i = 0; i < AT_ONCE; i++) {
        from.length = sizeof from.socket_address;
        ssize_t length = recvfrom(link->query_side, packet.octets, sizeof packet.octets, 0,
                                  (struct sockaddr *)&from.socket_address, &from.length);
        if (length < 0)
            return;
        packet.length = (size_t)length;
        pass_request(link, &packet, &from, system_nanoseconds());
    }
}

static void receive_replies(struct link *link) {
    struct packet packet;
    for (int i = 0; i < AT_ONCE; i++) {
        ssize_t length = recv(link->server_side, packet.octets, sizeof packet.octets, 0);
        if (length < 0) {
            counts.errors += errno != EAGAIN;
            return;
        }
        packet.length = (size_t)length;
        pass_reply(link, &packet, system_nanoseconds());
    }
}

static void receive_at(uint32_t number) {
    if (number == 2 * MOST_LINKS)
        receive_flood_replies();
    else if (number % 2 == 0)
        receive_requests(&links[number / 2]);
    else
        receive_replies(&links[number / 2]);
}

/* Waits until a socket has packets or the steady clock reads `due`, which ppoll takes to the nanosecond, and receives
 * them. */
static void receive_until(uint64_t due) {
    struct epoll_event ready[AT_ONCE];
    struct pollfd all = {.fd = watched, .events = POLLIN};
    uint64_t now = steady_nanoseconds();
    uint64_t left = due <= now ? 0 : due - now;
    struct timespec most = {(time_t)(left / 1000000000), (long)(left % 1000000000)};
    if (ppoll(&all, 1, &most, NULL) <= 0)
        return;
    int count = epoll_wait(watched, ready, AT_ONCE, 0);
    for (int i = 0; i < count; i++)
        receive_at(ready[i].data.u32);
}

static uint64_t earlier_of(uint64_t a, uint64_t b) {
    return a < b ? a : b;
}

void relay_until(const volatile sig_atomic_t *ended) {
    uint64_t next_watch = 0;
    while (!*ended) {
        receive_until(earlier_of(next_watch, earlier_of(first_due(), next_burst())));
        uint64_t now = steady_nanoseconds();
        send_due(now);
        if (next_burst() <= now)
            flood_server(now);
        if (next_watch <= now) {
            watch_overflow();
            next_watch = now + BETWEEN_WATCHES;
        }
    }
    uint64_t end = steady_nanoseconds() + LAST_RECEIVING;
    while (steady_nanoseconds() < end)
        receive_until(end);
}
