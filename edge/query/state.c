#include "state.h"

#include "errors.h"
#include "files.h"
#include "readings.h"
#include "state_text.h"

#include <errno.h>
#include <string.h>

/* Beyond any life of a program, and far enough from 2^64 that sums of uptimes and corrections stay exact. */
static const uint64_t LONGEST_UPTIME = UINT64_C(1) << 62;   /* in nanoseconds */
static const int64_t LARGEST_CORRECTION = INT64_C(1) << 62; /* in half units */

/* What the archive says of the list and of the debt, on copies. */
static const char *refused_by_archive(const struct state *state) {
    struct state copy = *state;
    int64_t paid;
    uint32_t number = pongulvesz_list_give_up(copy.images, list_length(&copy), 0, copy.in_use, 0);
    if (number == PONGULVESZ_IMAGE_NOT_LEGAL || number == PONGULVESZ_NOT_IN_LIST)
        return pongulvesz_words(number);
    number = pongulvesz_tick(&copy.debt, 1, &paid);
    return number == 0 ? NULL : pongulvesz_words(number);
}

static int has_plausible_times(const struct state *state) {
    uint64_t last_ask = 0;
    for (size_t i = 0; i < state->server_count; i++) {
        uint64_t asked = pongulvesz_image_uptime(state->images + PONGULVESZ_IMAGE * i);
        last_ask = asked > last_ask ? asked : last_ask;
    }
    return state->uptime < LONGEST_UPTIME && last_ask <= state->uptime / 1000000000;
}

/* A file with the right checksum that this program did not write. */
static const char *wrong_values(const struct state *state) {
    const char *refused = refused_by_archive(state);
    if (refused != NULL)
        return refused;
    if (!has_plausible_times(state))
        return "a record was asked later than the uptime that was saved, or the uptime is too large";
    if (state->correction >= LARGEST_CORRECTION || state->correction <= -LARGEST_CORRECTION)
        return "the correction is too large";
    return NULL;
}

static void begin_state(struct client *client) {
    struct state *state = &client->state;
    state->server_count = client->options->server_count;
    for (size_t i = 0; i < state->server_count; i++)
        pongulvesz_fresh(image_at(client, i), PONGULVESZ_IMAGE);
    resume_uptime(state);
}

/* Says what is wrong, and returns 0. */
static int fails(const struct client *client, const char *why, const char *more) {
    complain("%s: the state %s%s", client->options->state, why, more);
    return 0;
}

/* Another program with the same file would ask too, and each would write over what the other kept. */
static int lock_state(const struct client *client) {
    if (lock_file(client->options->state))
        return 1;
    if (errno == EAGAIN)
        return fails(client, "is in use by another program", "");
    return fails(client, "cannot be locked: ", strerror(errno));
}

int load_state(struct client *client) {
    char text[STATE_TEXT + 1], why[SERVER_TEXT] = "it is too long";
    size_t length;
    begin_state(client);
    if (client->options->state == NULL)
        return 1;
    if (!lock_state(client))
        return 0;
    if (!read_file(client->options->state, text, sizeof text, &length))
        return errno == ENOENT || fails(client, "cannot be read: ", strerror(errno));
    if (length == STATE_TEXT || !state_of_text(text, length, client->options->servers, &client->state, why))
        return fails(client, "is not taken: ", why);
    const char *wrong = wrong_values(&client->state);
    if (wrong != NULL)
        return fails(client, "is not taken: it is damaged: ", wrong);
    resume_uptime(&client->state);
    return 1;
}

int save_state(struct client *client) {
    const char *name = client->options->state;
    char text[STATE_TEXT];
    client->changed = 0;
    if (name == NULL)
        return 1;
    settle_uptime(client);
    size_t length = text_of_state(&client->state, client->options->servers, text);
    return replace_file(name, text, length) || fails(client, "cannot be saved: ", strerror(errno));
}
