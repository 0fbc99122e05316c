#include "events.h"
#include "readings.h"

#include <inttypes.h>
#include <stdio.h>
#include <time.h>

static const char *const names[] = {
    [EVENT_ASKED] = "asked",     [EVENT_ACCEPTED] = "accepted", [EVENT_KISS] = "kiss",
    [EVENT_REFUSED] = "refused", [EVENT_GAVE_UP] = "gave_up",   [EVENT_MOVED] = "moved",
    [EVENT_ENTERED] = "entered", [EVENT_PAID] = "paid",         [EVENT_STOPPED] = "stopped",
    [EVENT_ERROR] = "error",     [EVENT_FRESH] = "fresh",
};

void write_csv_header(void) {
    puts("time,event,server,in_use,number,code,offset,half,delay,t1,t4,token,correction,uptime");
}

/* A column that is empty where the event does not have its value. */
static void write_unsigned(int has, uint64_t number) {
    putchar(',');
    if (has)
        printf("%" PRIu64, number);
}

static void write_signed(int has, int64_t number) {
    putchar(',');
    if (has)
        printf("%" PRId64, number);
}

static void write_code(int has, uint32_t code) {
    char text[CODE_TEXT] = "";
    if (has)
        code_in_characters(code, text);
    printf(",%s", text);
}

/* What the event is, and when and of which server. */
static void write_first_columns(const struct client *client, const struct event *event) {
    struct timespec now = {0, 0};
    clock_gettime(CLOCK_REALTIME, &now);
    printf("%lld.%09ld,%s,%zu,%zu,%" PRIu32, (long long)now.tv_sec, now.tv_nsec, names[event->kind], event->server + 1,
           client->state.in_use + 1, event->number);
}

void write_csv(const struct client *client, const struct event *event) {
    write_first_columns(client, event);
    write_code(event->has & HAS_CODE, event->code);
    write_signed(event->has & HAS_OFFSET, event->offset);
    write_unsigned(event->has & HAS_HALF, event->half);
    write_signed(event->has & HAS_DELAY, event->delay);
    write_unsigned(event->has & HAS_T1, event->t1);
    write_unsigned(event->has & HAS_T4, event->t4);
    write_unsigned(event->has & HAS_TOKEN, event->token);
    write_signed(1, correction_counted(client));
    write_unsigned(1, event->has & HAS_UPTIME ? event->uptime : uptime_seconds(client));
    putchar('\n');
}
