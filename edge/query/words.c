#include "decimals.h"
#include "events.h"

#include <inttypes.h>
#include <stdio.h>

/* What the rows of kiss codes mean (RFC 4330, section 8). */
static const char *const kiss_meanings[] = {
    [PONGULVESZ_KISS_OTHER] = "a code that RFC 4330 does not list",
    [PONGULVESZ_KISS_ACST] = "the association belongs to an anycast server",
    [PONGULVESZ_KISS_AUTH] = "the server's authentication failed",
    [PONGULVESZ_KISS_AUTO] = "the Autokey sequence failed",
    [PONGULVESZ_KISS_BCST] = "the association belongs to a broadcast server",
    [PONGULVESZ_KISS_CRYP] = "cryptographic authentication or identification failed",
    [PONGULVESZ_KISS_DENY] = "the server denies access",
    [PONGULVESZ_KISS_DROP] = "a peer in symmetric mode was lost",
    [PONGULVESZ_KISS_RSTR] = "the server denies access by its local policy",
    [PONGULVESZ_KISS_INIT] = "the server is not synchronised for the first time yet",
    [PONGULVESZ_KISS_MCST] = "the association belongs to a manycast server",
    [PONGULVESZ_KISS_NKEY] = "no key was found, or it is not trusted",
    [PONGULVESZ_KISS_RATE] = "the client asked too often",
    [PONGULVESZ_KISS_RMOT] = "the association was altered from a remote host",
    [PONGULVESZ_KISS_STEP] = "the server's clock was stepped, and is not synchronised again yet",
};

/* An offset with its half, or a payment: in seconds, and exact. */
static void write_amount(const char *name, struct half_units amount) {
    char seconds[DECIMAL_TEXT], units[DECIMAL_TEXT];
    seconds_in_decimal(amount, seconds);
    units_in_decimal(amount, units);
    printf("%s %s s (%s units of 2^-32 s)", name, seconds, units);
}

static void write_offset(const char *name, const struct event *event) {
    write_amount(name, half_units_of_offset(event->offset, event->half));
}

static void write_accepted(const char *server, const struct event *event) {
    printf("accepted from %s: ", server);
    write_offset("offset", event);
    write_amount(", delay", half_units_of_offset(event->delay, 0));
}

static void write_kiss(const char *server, const struct event *event) {
    char code[CODE_TEXT];
    code_in_characters(event->code, code);
    printf("kiss %s from %s: %s", code, server, kiss_meanings[event->row]);
}

static void write_refused(const char *server, const struct event *event) {
    const char *meaning = pongulvesz_words(event->number);
    printf("refused by %" PRIu32 " (%s): %s %s", event->number, meaning == NULL ? "unknown number" : meaning,
           event->words, server);
}

static void write_entered(const struct client *client, const struct event *event) {
    write_offset("entered: offset", event);
    write_amount("; owed", half_units_of_number(client->state.debt));
}

static void write_paid(const struct client *client, const struct event *event) {
    write_amount("paid:", half_units_of_number(event->offset));
    write_amount("; owed", half_units_of_number(client->state.debt));
}

/* The record is idle then, and the archive says from which uptime it may be asked. */
static void write_gave_up(const struct client *client, const char *server, const struct event *event) {
    const uint8_t *image = client->state.images + PONGULVESZ_IMAGE * event->server;
    uint64_t due = 0;
    pongulvesz_ask_due(image, PONGULVESZ_IMAGE, &due);
    printf("gave up waiting for %s; it may be asked again %" PRIu64 " s after that ask", server,
           due - pongulvesz_image_uptime(image));
}

/* The line without its end. */
static void write_event(const struct client *client, const char *server, const struct event *event) {
    switch (event->kind) {
    case EVENT_ASKED:
        printf("asked %s", server);
        return;
    case EVENT_ACCEPTED:
        write_accepted(server, event);
        return;
    case EVENT_KISS:
        write_kiss(server, event);
        return;
    case EVENT_REFUSED:
        write_refused(server, event);
        return;
    case EVENT_GAVE_UP:
        write_gave_up(client, server, event);
        return;
    case EVENT_MOVED:
        printf("use moved to %s", server);
        return;
    case EVENT_ENTERED:
        write_entered(client, event);
        return;
    case EVENT_PAID:
        write_paid(client, event);
        return;
    case EVENT_STOPPED:
        printf("stopped: %s is not asked again until --fresh %zu", server, event->server + 1);
        return;
    case EVENT_ERROR:
        printf("error: %s: %s", server, event->words);
        return;
    case EVENT_FRESH:
        printf("fresh record for %s", server);
        return;
    }
}

void write_words(const struct client *client, const struct event *event) {
    char server[ADDRESS_WORDS];
    address_words(&client->addresses[event->server], server);
    write_event(client, server, event);
    putchar('\n');
}
