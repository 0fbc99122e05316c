#include "treatment.h"

#include <inttypes.h>
#include <stdio.h>

struct treatment treatment;
struct counts counts;

static const struct {
    const char *name;
    const uint64_t *count;
} lines[] = {
    {"requests", &counts.requests},
    {"to_server", &counts.to_server},
    {"replies", &counts.replies},
    {"to_query", &counts.to_query},
    {"dropped", &counts.dropped},
    {"doubled", &counts.doubled},
    {"delayed", &counts.delayed},
    {"late", &counts.late},
    {"damaged", &counts.damaged},
    {"forged", &counts.forged},
    {"kisses", &counts.kisses},
    {"altered", &counts.altered},
    {"flooded_queries", &counts.flooded_queries},
    {"flooded_server", &counts.flooded_server},
    {"flood_replies", &counts.flood_replies},
    {"unknown_replies", &counts.unknown_replies},
    {"errors", &counts.errors},
};

void write_counts(void) {
    for (size_t i = 0; i < sizeof lines / sizeof lines[0]; i++)
        printf("%s %" PRIu64 "\n", lines[i].name, *lines[i].count);
}
