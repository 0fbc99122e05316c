/* pongulvesz-server: answers SNTP requests (RFC 4330) on UDP. This program is not proved: it reads clocks and sockets;
 * what a reply holds, and which request gets none, is decided by the proved archive (docs/C.md). */
#include "batch.h"
#include "counts.h"
#include "settings.h"
#include "sockets.h"

#include <errno.h>
#include <signal.h>
#include <stdio.h>
#include <stdlib.h>
#include <string.h>
#include <sys/signalfd.h>
#include <unistd.h>

static int failed(const char *what) {
    fprintf(stderr, "pongulvesz-server: %s: %s\n", what, strerror(errno));
    return EXIT_FAILURE;
}

/* A descriptor from which signals are read. It is polled beside the sockets, so that no signal is lost and none waits
 * while requests keep coming; ppoll with a mask takes no signal as long as a socket is ready. */
static int open_signals(void) {
    sigset_t signals;
    sigemptyset(&signals);
    sigaddset(&signals, SIGTERM);
    sigaddset(&signals, SIGINT);
    sigaddset(&signals, SIGUSR1);
    signal(SIGPIPE, SIG_IGN); /* whoever read standard output may be gone */
    if (sigprocmask(SIG_BLOCK, &signals, NULL) != 0)
        return -1;
    return signalfd(-1, &signals, SFD_CLOEXEC | SFD_NONBLOCK);
}

/* Takes one signal. Returns whether the program goes on. */
static int take_signal(int signals, const struct counts *counts) {
    struct signalfd_siginfo taken;
    if (read(signals, &taken, sizeof taken) != sizeof taken)
        return 1;
    if (taken.ssi_signo != SIGUSR1)
        return 0;
    print_counts(counts);
    return 1;
}

/* One batch for each socket that has something, so that none keeps the others waiting. */
static void serve_ready(const struct polled *polled, struct batch *batch, const struct settings *settings,
                        struct counts *counts) {
    for (nfds_t i = 1; i < polled->count; i++)
        if (polled->descriptors[i].revents != 0)
            serve(polled->descriptors[i].fd, batch, settings, counts);
}

/* Answers until a signal ends it. Returns 0, or -1 with errno. */
static int run(const struct polled *polled, struct batch *batch, const struct settings *settings,
               struct counts *counts) {
    const struct pollfd *signals = &polled->descriptors[0];
    for (;;) {
        if (poll(polled->descriptors, polled->count, -1) < 0) {
            if (errno != EINTR)
                return -1;
            continue;
        }
        if (signals->revents != 0 && !take_signal(signals->fd, counts))
            return 0;
        serve_ready(polled, batch, settings, counts);
    }
}

/* Opens the sockets, answers, and prints what was counted. Returns the exit status. */
static int listen_and_run(struct polled *polled, struct batch *batch, const struct settings *settings) {
    struct counts counts = {0};
    if (!open_sockets(polled, settings))
        return EXIT_FAILURE;
    if (run(polled, batch, settings, &counts) != 0)
        return failed("poll");
    return print_counts(&counts) ? EXIT_SUCCESS : failed("standard output");
}

int main(int argc, char **argv) {
    struct settings settings;
    int status = settings_of_options(argc, argv, &settings);
    if (status != GO_ON)
        return status;
    /* the signals, and at most two sockets for each address and for the default */
    struct polled polled = {calloc(3 + 2 * (size_t)settings.address_count, sizeof(struct pollfd)), 1};
    struct batch *batch = new_batch(settings.batch);
    int signals = open_signals();
    if (polled.descriptors == NULL || batch == NULL || signals < 0) {
        status = failed("memory or signals");
    } else {
        polled.descriptors[0] = (struct pollfd){.fd = signals, .events = POLLIN};
        status = listen_and_run(&polled, batch, &settings);
    }
    free_batch(batch);
    free(polled.descriptors);
    return status;
}
