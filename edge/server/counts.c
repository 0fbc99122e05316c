#include "counts.h"

#include <inttypes.h>
#include <stdio.h>

static void print_refused(uint32_t number, uint64_t count) {
    const char *words = pongulvesz_words(number);
    if (count != 0)
        printf("refused by %" PRIu32 " %" PRIu64 ": %s\n", number, count, words == NULL ? "no words for it" : words);
}

int print_counts(const struct counts *counts) {
    printf("received %" PRIu64 "\n", counts->received);
    printf("answered %" PRIu64 "\n", counts->answered);
    for (uint32_t number = 1; number < sizeof counts->refused / sizeof counts->refused[0]; number++)
        print_refused(number, counts->refused[number]);
    printf("not sent %" PRIu64 "\n", counts->not_sent);
    printf("receive errors %" PRIu64 "\n", counts->receive_errors);
    return fflush(stdout) == 0 && !ferror(stdout);
}
