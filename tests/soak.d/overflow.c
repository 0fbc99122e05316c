#include "overflow.h"

#include "log.h"
#include "sending.h"

#include <inttypes.h>
#include <stdio.h>

/* The number that the last line which fits this form has, or 0. */
static uint64_t number_in(const char *name, const char *form) {
    char line[512];
    uint64_t number = 0;
    FILE *file = fopen(name, "r");
    if (file == NULL)
        return 0;
    while (fgets(line, sizeof line, file) != NULL)
        sscanf(line, form, &number);
    fclose(file);
    return number;
}

void watch_overflow(void) {
    static uint64_t earlier_count, earlier_time;
    uint64_t now = system_nanoseconds();
    uint64_t count = number_in("/proc/net/snmp", "Udp: %*u %*u %*u %*u %" SCNu64) +
                     number_in("/proc/net/snmp6", "Udp6RcvbufErrors %" SCNu64);
    struct record record = {.kind = OVERFLOWN, .receive = count - earlier_count, .came = earlier_time, .went = now};
    if (earlier_time != 0 && count != earlier_count)
        write_record(&record);
    earlier_count = count;
    earlier_time = now;
}
