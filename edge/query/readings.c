#include "readings.h"

#include <clocks.h>
#include <stdio.h>
#include <string.h>

static const uint64_t SECOND = 1000000000; /* in nanoseconds */

static const char unknown_boot[] = "unknown";

int64_t correction_counted(const struct client *client) {
    return client->options->measure ? 0 : client->state.correction;
}

/* Half units in whole units, rounded down. */
static int64_t units_of(int64_t half_units) {
    return half_units / 2 - (half_units % 2 < 0);
}

/* The caller's part of the ledger (docs/RULES.md): readings count in every entry taken, paid or not, for nothing that
 * is paid reaches the system's clock. */
uint64_t reading_at(const struct client *client, struct timespec system_reading) {
    uint64_t timestamp = timestamp_of_timespec(system_reading);
    return timestamp == 0 ? 0 : timestamp + (uint64_t)units_of(correction_counted(client));
}

uint64_t reading_now(const struct client *client) {
    struct timespec now = {0, 0};
    clock_gettime(CLOCK_REALTIME, &now);
    return reading_at(client, now);
}

uint64_t uptime_nanoseconds(const struct client *client) {
    return client->state.uptime + (steady_nanoseconds() - client->state.steady) * client->options->hasten;
}

uint64_t uptime_seconds(const struct client *client) {
    return uptime_nanoseconds(client) / SECOND;
}

uint64_t nanoseconds_until(const struct client *client, uint64_t uptime) {
    uint64_t now = uptime_nanoseconds(client);
    uint64_t hasten = client->options->hasten;
    return uptime * SECOND <= now ? 0 : (uptime * SECOND - now + hasten - 1) / hasten;
}

void read_boot(char boot[BOOT_TEXT]) {
    FILE *file = fopen("/proc/sys/kernel/random/boot_id", "r");
    int found = file != NULL && fscanf(file, "%36[0-9a-f-]", boot) == 1;
    if (file != NULL)
        fclose(file);
    if (!found)
        strcpy(boot, unknown_boot);
}

void settle_uptime(struct client *client) {
    uint64_t steady = steady_nanoseconds();
    client->state.uptime += (steady - client->state.steady) * client->options->hasten;
    client->state.steady = steady;
}

void resume_uptime(struct state *state) {
    char boot[BOOT_TEXT];
    read_boot(boot);
    uint64_t now = steady_nanoseconds();
    int same_boot = strcmp(boot, unknown_boot) != 0 && strcmp(boot, state->boot) == 0 && state->steady <= now;
    if (!same_boot)
        state->steady = now;
    strcpy(state->boot, boot);
}
