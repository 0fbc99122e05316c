#include "control.h"

#include "clocks.h"

#include <string.h>

/* A system that refuses one of these has the server read T2 itself, or choose the source of a reply by its routes. */
void ask_for_control(int socket, int family, int every_address) {
    const int on = 1;
    setsockopt(socket, SOL_SOCKET, SO_TIMESTAMPNS, &on, sizeof on);
    if (every_address && family == AF_INET)
        setsockopt(socket, IPPROTO_IP, IP_PKTINFO, &on, sizeof on);
    if (every_address && family == AF_INET6)
        setsockopt(socket, IPPROTO_IPV6, IPV6_RECVPKTINFO, &on, sizeof on);
}

/* The data of the control message of this level, type and length, or NULL. */
static const void *find(struct msghdr *message, int level, int type, size_t length) {
    struct cmsghdr *head = CMSG_FIRSTHDR(message);
    while (head != NULL && (head->cmsg_level != level || head->cmsg_type != type || head->cmsg_len != CMSG_LEN(length)))
        head = CMSG_NXTHDR(message, head);
    return head == NULL ? NULL : CMSG_DATA(head);
}

uint64_t kernel_timestamp(struct msghdr *request) {
    struct timespec reading;
    const void *found = find(request, SOL_SOCKET, SCM_TIMESTAMPNS, sizeof reading);
    if (found == NULL)
        return 0;
    memcpy(&reading, found, sizeof reading);
    return timestamp_of_timespec(reading);
}

static void put(struct msghdr *reply, union control *control, int level, int type, const void *data, size_t length) {
    memset(control, 0, sizeof *control);
    reply->msg_control = control->octets;
    reply->msg_controllen = CMSG_SPACE(length);
    struct cmsghdr *head = CMSG_FIRSTHDR(reply);
    head->cmsg_level = level;
    head->cmsg_type = type;
    head->cmsg_len = CMSG_LEN(length);
    memcpy(CMSG_DATA(head), data, length);
}

/* ipi_spec_dst is the address that the request came to, or for a broadcast the machine's own on that network. */
static void set_source_v4(struct msghdr *reply, union control *control, const void *destination) {
    struct in_pktinfo received;
    memcpy(&received, destination, sizeof received);
    const struct in_pktinfo source = {.ipi_spec_dst = received.ipi_spec_dst};
    put(reply, control, IPPROTO_IP, IP_PKTINFO, &source, sizeof source);
}

/* A multicast address is no source: the kernel chooses one then. A link-local one holds for its interface alone. */
static void set_source_v6(struct msghdr *reply, union control *control, const void *destination) {
    struct in6_pktinfo source;
    memcpy(&source, destination, sizeof source);
    if (IN6_IS_ADDR_MULTICAST(&source.ipi6_addr))
        return;
    if (!IN6_IS_ADDR_LINKLOCAL(&source.ipi6_addr))
        source.ipi6_ifindex = 0;
    put(reply, control, IPPROTO_IPV6, IPV6_PKTINFO, &source, sizeof source);
}

void set_source(struct msghdr *reply, union control *control, struct msghdr *request) {
    const void *destination = find(request, IPPROTO_IP, IP_PKTINFO, sizeof(struct in_pktinfo));
    if (destination != NULL) {
        set_source_v4(reply, control, destination);
        return;
    }
    destination = find(request, IPPROTO_IPV6, IPV6_PKTINFO, sizeof(struct in6_pktinfo));
    if (destination != NULL)
        set_source_v6(reply, control, destination);
}
