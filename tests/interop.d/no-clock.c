/* Loaded before the C library (LD_PRELOAD) by a peer's daemon: whatever it would do to the clock is answered with
 * success, and nothing is done. So a daemon that counts as synchronised only once it has corrected the clock becomes
 * synchronised, and this machine's clock stays as it is. tests/interop takes the right to set the clock away too; this
 * file is no protection, it only lets the daemon go on. */
#define _GNU_SOURCE
#include <string.h>
#include <sys/time.h>
#include <sys/timex.h>
#include <time.h>

/* What the kernel reports of a clock that nobody steers: no offset, no frequency, synchronised. */
static int steady(struct timex *steering) {
    unsigned int modes = steering->modes;
    memset(steering, 0, sizeof *steering);
    steering->modes = modes;
    steering->tick = 10000;
    steering->tolerance = 500 << 16;
    steering->precision = 1;
    return TIME_OK;
}

int adjtimex(struct timex *steering) {
    return steady(steering);
}

int ntp_adjtime(struct timex *steering) {
    return steady(steering);
}

int clock_adjtime(clockid_t clock, struct timex *steering) {
    (void)clock;
    return steady(steering);
}

int adjtime(const struct timeval *wanted, struct timeval *left) {
    (void)wanted;
    if (left)
        memset(left, 0, sizeof *left);
    return 0;
}

int settimeofday(const struct timeval *reading, const struct timezone *zone) {
    (void)reading;
    (void)zone;
    return 0;
}

int clock_settime(clockid_t clock, const struct timespec *reading) {
    (void)clock;
    (void)reading;
    return 0;
}
