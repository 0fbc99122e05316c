/* The readings that the archive is given: of the client's clock, and the uptime. */
#ifndef QUERY_READINGS_H
#define QUERY_READINGS_H

#include "client.h"

#include <time.h>

/* What the readings count in beside the system's clock, in half units: all entries taken, or nothing with --measure. */
int64_t correction_counted(const struct client *client);

/* The client's clock where the system's clock reads so, or 0 where that reading has no timestamp: the archive refuses
 * it by 3. */
uint64_t reading_at(const struct client *client, struct timespec system_reading);

/* The client's clock now. */
uint64_t reading_now(const struct client *client);

/* The uptime in nanoseconds and in whole seconds. It never goes back. */
uint64_t uptime_nanoseconds(const struct client *client);
uint64_t uptime_seconds(const struct client *client);

/* Nanoseconds of the steady clock until this uptime, which is in seconds; 0 if it is there already. */
uint64_t nanoseconds_until(const struct client *client, uint64_t uptime);

/* The text of the machine's present boot, or "unknown" where the system has none. */
void read_boot(char boot[BOOT_TEXT]);

/* Makes the uptime of the state that of now. */
void settle_uptime(struct client *client);

/* Goes on from a saved state: in the same boot the time since then counts, in another one it goes on from the uptime
 * that was saved. */
void resume_uptime(struct state *state);

#endif
