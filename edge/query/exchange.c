#include "exchange.h"

#include "events.h"
#include "ledger.h"
#include "readings.h"
#include "sockets.h"
#include "tokens.h"

#include <errno.h>
#include <string.h>
#include <sys/socket.h>
#include <unistd.h>

/* More than a socket's buffer holds, and few enough that a flood does not keep the rest from its turn. */
enum { MOST_AT_ONCE = 1000 };

void close_socket(struct client *client) {
    if (client->socket >= 0)
        close(client->socket);
    client->socket = -1;
}

/* A refused ask ends one exchange; so does a stopped record, which no later ask changes, any run. */
static void ask_was_refused(struct client *client, const struct event *asked, uint32_t number) {
    struct event event = *asked;
    event.kind = EVENT_REFUSED;
    event.number = number;
    event.words = "an ask of";
    close_socket(client);
    report(client, &event);
    client->ask_not_before = event.uptime + 1;
    if (!client->options->watch || number == PONGULVESZ_CLIENT_STOPPED)
        client->outcome = ENDED_ILL;
}

/* The last step before the request leaves is the reading of the clock. Where it does not leave, the record waits all
 * the same, is given up and backs off. */
static uint32_t send_request(struct client *client, struct event *asked, int *error) {
    uint8_t packet[PONGULVESZ_PACKET];
    struct state *state = &client->state;
    asked->uptime = uptime_seconds(client);
    asked->t1 = reading_now(client);
    uint32_t number =
        pongulvesz_list_ask(state->images, list_length(state), asked->server, state->in_use, packet, sizeof packet,
                            client->options->version, asked->t1, asked->token, asked->uptime);
    if (number == 0 && client->socket >= 0)
        *error = send(client->socket, packet, sizeof packet, 0) < 0 ? errno : 0;
    return number;
}

void ask(struct client *client) {
    size_t at = client->state.in_use;
    struct event asked = {.kind = EVENT_ASKED, .server = at, .has = HAS_T1 | HAS_TOKEN | HAS_UPTIME};
    if (!random_token(&asked.token)) {
        report_error(client, at, "the system's random source gives no token");
        client->outcome = ENDED_ILL;
        return;
    }
    client->socket = open_socket(&client->addresses[at]);
    int error = client->socket < 0 ? errno : 0;
    uint32_t number = send_request(client, &asked, &error);
    if (number != 0) {
        ask_was_refused(client, &asked, number);
        return;
    }
    client->changed = 1;
    client->has_asked = 1;
    report(client, &asked);
    if (error != 0)
        report_error(client, at, strerror(error));
}

static void was_accepted(struct client *client, struct event *event, const uint8_t *answer) {
    event->kind = EVENT_ACCEPTED;
    event->has |= HAS_OFFSET | HAS_HALF | HAS_DELAY;
    event->offset = pongulvesz_answer_offset(answer);
    event->half = pongulvesz_answer_half(answer);
    event->delay = pongulvesz_answer_delay(answer);
    report(client, event);
    if (!client->options->measure)
        enter(client, event->server, event->offset, event->half);
    client->accepted++;
    if (client->outcome == GOING_ON && (!client->options->watch || client->accepted == client->options->count))
        client->outcome = ENDED_WELL;
}

/* After a kiss the record is stopped, and use moves, or it backs off; one exchange goes on where use has moved. */
static void was_kissed(struct client *client, struct event *event, const uint8_t *answer) {
    event->kind = EVENT_KISS;
    event->has |= HAS_CODE;
    event->row = pongulvesz_answer_row(answer);
    event->code = pongulvesz_answer_code(answer);
    report(client, event);
    if (pongulvesz_image_phase(image_at(client, event->server)) == PONGULVESZ_STOPPED)
        report(client, &(struct event){.kind = EVENT_STOPPED, .server = event->server});
    int moved = client->state.in_use != event->server;
    if (moved)
        report(client, &(struct event){.kind = EVENT_MOVED, .server = client->state.in_use});
    if (!moved && !client->options->watch)
        client->outcome = ENDED_ILL;
}

static void was_refused(struct client *client, struct event *event, uint32_t number) {
    event->kind = EVENT_REFUSED;
    event->number = number;
    event->words = "a packet from";
    report(client, event);
}

/* Hands a packet to the archive. A refused one changes nothing, and waiting goes on. */
static void judge(struct client *client, const struct received *received) {
    struct state *state = &client->state;
    size_t at = state->in_use;
    uint8_t answer[PONGULVESZ_ANSWER];
    struct event event = {.server = at, .has = HAS_T1 | HAS_T4 | HAS_TOKEN};
    event.t1 = pongulvesz_image_t1(image_at(client, at));
    event.token = pongulvesz_image_token(image_at(client, at));
    event.t4 = reading_at(client, received->arrived);
    uint32_t number = pongulvesz_list_arrival(state->images, list_length(state), at, &state->in_use, answer,
                                              sizeof answer, event.t4, received->octets, received->length);
    if (number != 0) {
        was_refused(client, &event, number);
        return;
    }
    client->changed = 1;
    close_socket(client);
    if (pongulvesz_answer_kind(answer) == PONGULVESZ_ACCEPTED)
        was_accepted(client, &event, answer);
    else
        was_kissed(client, &event, answer);
}

/* Takes one packet, or an error such as a port that nobody listens on: anyone can pretend that, so waiting goes on.
 * Returns whether there was one. */
static int take_arrival(struct client *client) {
    struct received received;
    switch (receive_packet(client->socket, &received)) {
    case RECEIVED:
        judge(client, &received);
        return 1;
    case RECEIVE_FAILED:
        report_error(client, client->state.in_use, strerror(errno));
        return 1;
    default:
        return 0;
    }
}

void take_arrivals(struct client *client) {
    for (int left = MOST_AT_ONCE; left > 0 && client->socket >= 0 && take_arrival(client); left--)
        ;
}

void give_up(struct client *client, uint64_t uptime) {
    struct state *state = &client->state;
    size_t at = state->in_use;
    struct event event = {.kind = EVENT_GAVE_UP, .server = at, .has = HAS_UPTIME, .uptime = uptime};
    if (pongulvesz_list_give_up(state->images, list_length(state), at, at, event.uptime) != 0)
        return; /* 20: the uptime is not there yet */
    client->changed = 1;
    close_socket(client);
    report(client, &event);
    /* what an earlier run left waiting is no exchange of this one */
    if (client->has_asked && !client->options->watch)
        client->outcome = ENDED_ILL;
}
