#include "events.h"

#include "errors.h"

#include <errno.h>
#include <stdio.h>
#include <string.h>

static int stands_for_itself(uint8_t octet) {
    return 0x20 <= octet && octet <= 0x7E && octet != ',' && octet != '"' && octet != '\\';
}

void code_in_characters(uint32_t code, char text[CODE_TEXT]) {
    for (int shift = 24; shift >= 0; shift -= 8) {
        uint8_t octet = (uint8_t)(code >> shift);
        text += snprintf(text, 5, stands_for_itself(octet) ? "%c" : "\\x%02X", octet);
    }
}

void begin_events(const struct client *client) {
    if (client->options->csv)
        write_csv_header();
}

void report(struct client *client, const struct event *event) {
    if (client->options->csv)
        write_csv(client, event);
    else
        write_words(client, event);
    if (fflush(stdout) == 0)
        return;
    complain("standard output: %s", strerror(errno));
    client->outcome = ENDED_ILL;
}

void report_error(struct client *client, size_t server, const char *what) {
    /* comma-separated values have no column for words */
    if (client->options->csv)
        complain("%s: %s", client->options->servers[server], what);
    report(client, &(struct event){.kind = EVENT_ERROR, .server = server, .words = what});
}
