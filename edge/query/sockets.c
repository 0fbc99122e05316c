#include "sockets.h"

#include <errno.h>
#include <string.h>
#include <sys/socket.h>
#include <sys/uio.h>
#include <unistd.h>

int open_socket(const struct address *server) {
    int on = 1;
    int opened = socket(server->socket_address.ss_family, SOCK_DGRAM | SOCK_NONBLOCK | SOCK_CLOEXEC, 0);
    if (opened < 0)
        return -1;
    /* where the kernel refuses this, arrival is read from the clock */
    setsockopt(opened, SOL_SOCKET, SO_TIMESTAMPNS, &on, sizeof on);
    if (connect(opened, (const struct sockaddr *)&server->socket_address, server->length) == 0)
        return opened;
    int error = errno;
    close(opened);
    errno = error;
    return -1;
}

/* The kernel's timestamp of a packet, or else what the clock reads now. */
static struct timespec arrival_of(struct msghdr *message) {
    struct timespec arrived = {0, 0};
    for (struct cmsghdr *part = CMSG_FIRSTHDR(message); part != NULL; part = CMSG_NXTHDR(message, part))
        if (part->cmsg_level == SOL_SOCKET && part->cmsg_type == SCM_TIMESTAMPNS) {
            memcpy(&arrived, CMSG_DATA(part), sizeof arrived);
            return arrived;
        }
    clock_gettime(CLOCK_REALTIME, &arrived);
    return arrived;
}

enum reception receive_packet(int socket, struct received *received) {
    union {
        struct cmsghdr alignment;
        char octets[CMSG_SPACE(sizeof(struct timespec))];
    } control;
    struct iovec octets = {received->octets, sizeof received->octets};
    struct msghdr message = {
        .msg_iov = &octets, .msg_iovlen = 1, .msg_control = control.octets, .msg_controllen = sizeof control.octets};
    ssize_t length = recvmsg(socket, &message, MSG_DONTWAIT);
    if (length < 0)
        return errno == EAGAIN || errno == EWOULDBLOCK || errno == EINTR ? NOTHING : RECEIVE_FAILED;
    received->length = (size_t)length;
    received->arrived = arrival_of(&message);
    return RECEIVED;
}
