/* Calls of the system that fail where the environment's FAULT says so; tests/edge-server links them in by --wrap.
 *
 * no-ipv6: no socket of IPv6. no-timestamps: the kernel stamps no request. receive: every second receiving fails.
 * send: the sendings fail in turn for want of room, of a route and of permission, and each fourth succeeds. one-by-one:
 * a sending sends one message. clock-back: the clock reads ten seconds less. clock-1960: it reads a time of 1960. */
#include <errno.h>
#include <netinet/in.h>
#include <stdlib.h>
#include <string.h>
#include <sys/socket.h>
#include <time.h>

int __real_socket(int family, int type, int protocol);
int __real_setsockopt(int to, int level, int name, const void *value, socklen_t length);
int __real_recvmmsg(int from, struct mmsghdr *messages, unsigned count, int flags, struct timespec *timeout);
int __real_sendmmsg(int to, struct mmsghdr *messages, unsigned count, int flags);
int __real_clock_gettime(clockid_t clock, struct timespec *reading);
int __wrap_socket(int family, int type, int protocol);
int __wrap_setsockopt(int to, int level, int name, const void *value, socklen_t length);
int __wrap_recvmmsg(int from, struct mmsghdr *messages, unsigned count, int flags, struct timespec *timeout);
int __wrap_sendmmsg(int to, struct mmsghdr *messages, unsigned count, int flags);
int __wrap_clock_gettime(clockid_t clock, struct timespec *reading);

static int fault(const char *name) {
    const char *set = getenv("FAULT");
    return set != NULL && strcmp(set, name) == 0;
}

static int fail(int error) {
    errno = error;
    return -1;
}

int __wrap_socket(int family, int type, int protocol) {
    if (fault("no-ipv6") && family == AF_INET6)
        return fail(EAFNOSUPPORT);
    return __real_socket(family, type, protocol);
}

int __wrap_setsockopt(int to, int level, int name, const void *value, socklen_t length) {
    if (fault("no-timestamps") && level == SOL_SOCKET && name == SO_TIMESTAMPNS)
        return fail(ENOPROTOOPT);
    return __real_setsockopt(to, level, name, value, length);
}

int __wrap_recvmmsg(int from, struct mmsghdr *messages, unsigned count, int flags, struct timespec *timeout) {
    static unsigned calls;
    if (fault("receive") && calls++ % 2 == 0)
        return fail(ENOBUFS);
    return __real_recvmmsg(from, messages, count, flags, timeout);
}

int __wrap_sendmmsg(int to, struct mmsghdr *messages, unsigned count, int flags) {
    static const int errors[] = {EAGAIN, ENETUNREACH, EPERM};
    static unsigned calls;
    if (fault("send") && calls++ % 4 != 3)
        return fail(errors[(calls - 1) % 4]);
    return __real_sendmmsg(to, messages, fault("one-by-one") ? 1 : count, flags);
}

int __wrap_clock_gettime(clockid_t clock, struct timespec *reading) {
    int result = __real_clock_gettime(clock, reading);
    if (fault("clock-back") && clock == CLOCK_REALTIME)
        reading->tv_sec -= 10;
    if (fault("clock-1960") && clock == CLOCK_REALTIME)
        reading->tv_sec = -315619200;
    return result;
}
