#include "state_text.h"

#include "checksum.h"

#include <inttypes.h>
#include <stdio.h>
#include <stdlib.h>
#include <string.h>

enum { CHECKSUM_LINE = sizeof "checksum 00000000\n" - 1 };

static const char first_line[] = "pongulvesz-query state 1\n";

static size_t put_image(char *text, const uint8_t *image) {
    size_t length = (size_t)sprintf(text, "image ");
    for (size_t i = 0; i < PONGULVESZ_IMAGE; i++)
        length += (size_t)sprintf(text + length, "%02X", (unsigned)image[i]);
    return length + (size_t)sprintf(text + length, "\n");
}

static size_t put_checksum(char *text, size_t length) {
    return (size_t)sprintf(text + length, "checksum %08" PRIX32 "\n", crc32_of(text, length));
}

size_t text_of_state(const struct state *state, const char *const *servers, char text[STATE_TEXT]) {
    size_t length = (size_t)sprintf(text, "%sboot %s\nsteady %" PRIu64 "\nuptime %" PRIu64 "\n", first_line,
                                    state->boot, state->steady, state->uptime);
    length += (size_t)sprintf(text + length, "in-use %zu\ndebt %" PRId64 "\ncorrection %" PRId64 "\n",
                              state->in_use + 1, state->debt, state->correction);
    for (size_t i = 0; i < state->server_count; i++) {
        length += (size_t)sprintf(text + length, "server %s\n", servers[i]);
        length += put_image(text + length, state->images + PONGULVESZ_IMAGE * i);
    }
    return length + put_checksum(text, length);
}

/* The value of the next line, where that line has the name and a value that fits; the rest goes behind the line. */
static int take_value(const char **rest, const char *name, char value[SERVER_TEXT]) {
    size_t name_length = strlen(name);
    if (strncmp(*rest, name, name_length) != 0 || (*rest)[name_length] != ' ')
        return 0;
    const char *start = *rest + name_length + 1;
    size_t length = strcspn(start, "\n");
    if (start[length] != '\n' || length >= SERVER_TEXT)
        return 0;
    memcpy(value, start, length);
    value[length] = '\0';
    *rest = start + length + 1;
    return 1;
}

static int take_unsigned(const char **rest, const char *name, uint64_t *number) {
    char value[SERVER_TEXT];
    int had = take_value(rest, name, value);
    *number = had ? strtoull(value, NULL, 10) : 0;
    return had;
}

static int take_signed(const char **rest, const char *name, int64_t *number) {
    char value[SERVER_TEXT];
    int had = take_value(rest, name, value);
    *number = had ? strtoll(value, NULL, 10) : 0;
    return had;
}

static int take_boot(const char **rest, char boot[BOOT_TEXT]) {
    char value[SERVER_TEXT];
    if (!take_value(rest, "boot", value) || strlen(value) >= BOOT_TEXT)
        return 0;
    strcpy(boot, value);
    return 1;
}

static int take_image(const char **rest, uint8_t *image) {
    char value[SERVER_TEXT];
    if (!take_value(rest, "image", value) || strlen(value) != 2 * PONGULVESZ_IMAGE)
        return 0;
    for (size_t i = 0; i < PONGULVESZ_IMAGE; i++) {
        char digits[3] = {value[2 * i], value[2 * i + 1], '\0'};
        image[i] = (uint8_t)strtoul(digits, NULL, 16);
    }
    return 1;
}

/* The values before the servers'. */
static int take_numbers(const char **rest, struct state *state) {
    uint64_t in_use;
    int had = take_boot(rest, state->boot) && take_unsigned(rest, "steady", &state->steady) &&
              take_unsigned(rest, "uptime", &state->uptime) && take_unsigned(rest, "in-use", &in_use) &&
              take_signed(rest, "debt", &state->debt) && take_signed(rest, "correction", &state->correction);
    state->in_use = had ? (size_t)in_use - 1 : 0;
    return had;
}

/* Server and image of one number. Returns NULL, or what is wrong. */
static const char *take_server(const char **rest, size_t at, const char *server, struct state *state,
                               char why[SERVER_TEXT]) {
    char value[SERVER_TEXT];
    if (!take_value(rest, "server", value)) {
        snprintf(why, SERVER_TEXT, "it is of fewer servers than the command line: there is no number %zu", at + 1);
        return why;
    }
    if (strcmp(value, server) != 0) {
        snprintf(why, SERVER_TEXT, "it is of other servers than the command line: number %zu is %.200s", at + 1, value);
        return why;
    }
    return take_image(rest, state->images + PONGULVESZ_IMAGE * at)
               ? NULL
               : "it is damaged: an image is not 64 hexadecimal digits";
}

/* What is wrong with the frame of the text, or NULL: it begins with the first line and ends with the checksum of all
 * before it. */
static const char *wrong_frame(const char *text, size_t length) {
    char copy[STATE_TEXT];
    if (length < sizeof first_line - 1 + CHECKSUM_LINE || memchr(text, '\0', length) != NULL)
        return "it is damaged: it is cut, or no text";
    if (strncmp(text, first_line, sizeof first_line - 1) != 0)
        return "it is no state file of this version of the program: its first line is another one";
    size_t summed = length - CHECKSUM_LINE;
    memcpy(copy, text, summed);
    put_checksum(copy, summed);
    return memcmp(copy, text, length) == 0 ? NULL : "it is damaged: its checksum is not that of its content";
}

static const char *wrong_content(const char *text, const char *const *servers, struct state *state,
                                 char why[SERVER_TEXT]) {
    const char *rest = text + sizeof first_line - 1;
    if (!take_numbers(&rest, state))
        return "it is damaged: a line is missing";
    for (size_t i = 0; i < state->server_count; i++) {
        const char *wrong = take_server(&rest, i, servers[i], state, why);
        if (wrong != NULL)
            return wrong;
    }
    if (strncmp(rest, "server ", 7) == 0)
        return "it is of more servers than the command line";
    /* numbers are read leniently above: each state has one text, and no other is taken */
    char same[STATE_TEXT];
    text_of_state(state, servers, same);
    return strcmp(same, text) == 0 ? NULL : "it is damaged: a number is not written as the program writes it";
}

int state_of_text(const char *text, size_t length, const char *const *servers, struct state *state,
                  char why[SERVER_TEXT]) {
    const char *wrong = wrong_frame(text, length);
    if (wrong == NULL)
        wrong = wrong_content(text, servers, state, why);
    if (wrong != NULL && wrong != why)
        snprintf(why, SERVER_TEXT, "%s", wrong);
    return wrong == NULL;
}
