/* pongulvesz-query: asks SNTP servers for the time. Everything that decides is in the proved archive; here are the
 * options, the waiting and the order of the calls. The system's clock is read and never set. */
#include "errors.h"
#include "events.h"
#include "exchange.h"
#include "ledger.h"
#include "readings.h"
#include "state.h"

#include <errno.h>
#include <poll.h>
#include <signal.h>
#include <stdlib.h>
#include <string.h>

static volatile sig_atomic_t ended_by_signal;

static void end(int number) {
    (void)number;
    ended_by_signal = 1;
}

/* SIGINT and SIGTERM are let in while the program waits, and at no other time: what else it does is done whole. Returns
 * the mask to wait with. */
static sigset_t hold_signals(void) {
    struct sigaction ending = {.sa_handler = end}, ignoring = {.sa_handler = SIG_IGN};
    sigset_t held, before;
    sigaction(SIGINT, &ending, NULL);
    sigaction(SIGTERM, &ending, NULL);
    sigaction(SIGPIPE, &ignoring, NULL);
    sigemptyset(&held);
    sigaddset(&held, SIGINT);
    sigaddset(&held, SIGTERM);
    sigprocmask(SIG_BLOCK, &held, &before);
    sigdelset(&before, SIGINT);
    sigdelset(&before, SIGTERM);
    return before;
}

static int find_addresses(struct client *client) {
    for (size_t i = 0; i < client->options->server_count; i++) {
        const char *wrong = address_of_text(client->options->servers[i], "123", 0, &client->addresses[i]);
        if (wrong != NULL) {
            complain("%s: %s", client->options->servers[i], wrong);
            return 0;
        }
    }
    return 1;
}

/* Hands in fresh records. One that has not stopped is kept, so that its server is not asked more often than its record
 * allows. */
static int hand_in_fresh(struct client *client) {
    for (size_t i = 0; i < client->options->server_count; i++) {
        if (!client->options->fresh[i])
            continue;
        if (pongulvesz_image_phase(image_at(client, i)) != PONGULVESZ_STOPPED) {
            complain("--fresh %zu: %s has not stopped", i + 1, client->options->servers[i]);
            return 0;
        }
        pongulvesz_fresh(image_at(client, i), PONGULVESZ_IMAGE);
        report(client, &(struct event){.kind = EVENT_FRESH, .server = i});
    }
    return 1;
}

static int is_waiting(struct client *client) {
    return pongulvesz_image_phase(image_at(client, client->state.in_use)) == PONGULVESZ_WAITING;
}

/* The uptime from which the record in use may be asked or given up, as the archive says. One exchange asks at once, and
 * so is a stopped record asked: the archive refuses what may not be, and that ends the program. A refused due call leaves
 * 0, so that the call is tried at once. */
static uint64_t next_step(struct client *client) {
    const uint8_t *image = image_at(client, client->state.in_use);
    uint64_t due = 0;
    if (is_waiting(client)) {
        pongulvesz_give_up_due(image, PONGULVESZ_IMAGE, &due);
        return due;
    }
    if (client->options->watch)
        pongulvesz_ask_due(image, PONGULVESZ_IMAGE, &due);
    return due > client->ask_not_before ? due : client->ask_not_before;
}

/* Waits until a packet or a signal comes, the next step is due, or where something is owed the next second begins. */
static void wait_for_next(struct client *client, const sigset_t *mask) {
    struct pollfd readable = {.fd = client->socket, .events = POLLIN};
    uint64_t due = next_step(client);
    if (owes(client) && client->last_tick + 1 < due)
        due = client->last_tick + 1;
    uint64_t nanoseconds = nanoseconds_until(client, due);
    struct timespec timeout = {(time_t)(nanoseconds / 1000000000), (long)(nanoseconds % 1000000000)};
    if (ppoll(&readable, 1, &timeout, mask) < 0 && errno != EINTR) {
        complain("waiting failed: %s", strerror(errno));
        client->outcome = ENDED_ILL;
    }
}

/* Does whatever is due. The uptime is read first and packets go before giving up, so that a reply which came by that
 * uptime is taken, however long the program is kept waiting in between. */
static void step(struct client *client) {
    uint64_t uptime = uptime_seconds(client);
    take_arrivals(client);
    tick(client);
    if (client->outcome == GOING_ON && uptime >= next_step(client)) {
        if (is_waiting(client))
            give_up(client, uptime);
        else
            ask(client);
    }
    if (client->changed && !save_state(client))
        client->outcome = ENDED_UNSAVED;
}

static void run(struct client *client, const sigset_t *mask) {
    while (client->outcome == GOING_ON) {
        wait_for_next(client, mask);
        if (ended_by_signal)
            client->outcome = client->options->watch ? ENDED_WELL : ENDED_ILL;
        else
            step(client);
    }
}

int main(int argc, char **argv) {
    struct options options;
    int status = read_options(argc, argv, &options);
    if (status >= 0)
        return status;
    struct client client = {.options = &options, .socket = -1};
    if (!find_addresses(&client) || !load_state(&client))
        return EXIT_FAILURE;
    sigset_t mask = hold_signals();
    begin_events(&client);
    if (!hand_in_fresh(&client) || !save_state(&client))
        return EXIT_FAILURE;
    client.last_tick = uptime_seconds(&client);
    run(&client, &mask);
    close_socket(&client);
    int saved = client.outcome != ENDED_UNSAVED && save_state(&client);
    return saved && client.outcome == ENDED_WELL ? EXIT_SUCCESS : EXIT_FAILURE;
}
