#include "ledger.h"

#include "events.h"
#include "readings.h"

void enter(struct client *client, size_t server, int64_t offset, uint32_t half) {
    struct state *state = &client->state;
    struct event event = {.server = server, .has = HAS_OFFSET | HAS_HALF, .offset = offset, .half = half};
    int64_t before = state->debt;
    event.number = pongulvesz_entry(&state->debt, offset, half);
    if (event.number == 0) {
        event.kind = EVENT_ENTERED;
        state->correction += state->debt - before;
        client->changed = 1;
    } else {
        event.kind = EVENT_REFUSED;
        event.words = "an entry of the offset from";
    }
    report(client, &event);
}

int owes(const struct client *client) {
    return !client->options->measure && client->state.debt != 0;
}

void tick(struct client *client) {
    struct event event = {.kind = EVENT_PAID, .server = client->state.in_use, .has = HAS_OFFSET | HAS_UPTIME};
    event.uptime = uptime_seconds(client);
    if (!owes(client) || event.uptime == client->last_tick)
        return;
    client->last_tick = event.uptime;
    if (pongulvesz_tick(&client->state.debt, client->options->limit, &event.offset) != 0)
        return;
    client->changed = 1;
    report(client, &event);
}
