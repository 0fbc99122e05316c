/* Events: what happened, a line each on standard output, in words or as comma-separated values. */
#ifndef QUERY_EVENTS_H
#define QUERY_EVENTS_H

#include "client.h"

enum event_kind {
    EVENT_ASKED,
    EVENT_ACCEPTED,
    EVENT_KISS,
    EVENT_REFUSED,
    EVENT_GAVE_UP,
    EVENT_MOVED,
    EVENT_ENTERED,
    EVENT_PAID,
    EVENT_STOPPED,
    EVENT_ERROR,
    EVENT_FRESH,
};

/* Which of its values an event has. */
enum {
    HAS_CODE = 1,
    HAS_OFFSET = 2,
    HAS_HALF = 4,
    HAS_DELAY = 8,
    HAS_T1 = 16,
    HAS_T4 = 32,
    HAS_TOKEN = 64,
    HAS_UPTIME = 128
};

struct event {
    enum event_kind kind;
    size_t server;     /* number of the record, from 0 */
    uint32_t number;   /* of the refusal, or 0 */
    const char *words; /* of a refusal: what was refused; of an error: what it is */
    unsigned has;
    uint32_t code; /* of a kiss, its first character in the highest octet */
    uint32_t row;  /* of that code: PONGULVESZ_KISS_ACST to PONGULVESZ_KISS_STEP, or PONGULVESZ_KISS_OTHER */
    int64_t offset; /* in units of 2^-32 s; of a payment in half units */
    uint32_t half;
    int64_t delay; /* in units of 2^-32 s */
    uint64_t t1;
    uint64_t t4;
    uint64_t token;
    uint64_t uptime; /* that the call was made with; where the event has none, its line has the uptime now */
};

/* Room for a kiss code in characters, its terminating zero included. */
enum { CODE_TEXT = 17 };

/* The code in characters: what is not printable, and what has a meaning in comma-separated values or in this notation,
 * is \xHH. */
void code_in_characters(uint32_t code, char text[CODE_TEXT]);

/* Writes the line before all events, where there is one. */
void begin_events(const struct client *client);

/* Writes an event's line at once. Where standard output takes no more, the program ends. */
void report(struct client *client, const struct event *event);

/* Reports an error of the exchange with the server of a record. */
void report_error(struct client *client, size_t server, const char *what);

/* One line, in words (words.c) and as comma-separated values (csv.c). */
void write_words(const struct client *client, const struct event *event);
void write_csv_header(void);
void write_csv(const struct client *client, const struct event *event);

#endif
