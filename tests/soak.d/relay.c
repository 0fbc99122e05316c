/* soak-relay OPTION... QUERY...: stands between queries and a server on one machine, and treats their packets as a bad
 * network and a stranger would. A query is CONSTANT,MICROSECONDS,SERVERS: what is added to its replies' timestamps,
 * after how long it gives up, and how many servers it knows. Writes the address that it is to know for each, and when
 * SIGTERM ends it, how often it did what. */
#include "flood.h"
#include "passage.h"
#include "sending.h"
#include "treatment.h"
#include "waiting.h"

#include <getopt.h>
#include <stdio.h>
#include <stdlib.h>

static const char *log_name, *server_name;
static uint64_t seed;

/* Options with a number. */
static const struct {
    const char *name;
    uint64_t *number;
} numbers[] = {
    {"seed", &seed},
    {"dropped", &treatment.dropped},
    {"doubled", &treatment.doubled},
    {"damaged", &treatment.damaged},
    {"delayed", &treatment.delayed},
    {"late", &treatment.late},
    {"forged", &treatment.forged},
    {"flooded", &treatment.flooded},
    {"altered", &treatment.altered},
    {"burst", &treatment.burst},
    {"flood-interval", &treatment.flood_interval},
    {"kiss-interval", &treatment.kiss_interval},
};

enum { NUMBERS = sizeof numbers / sizeof numbers[0], LOG = NUMBERS, SERVER, OPTIONS };

static int read_options(int argc, char **argv) {
    struct option options[OPTIONS + 1] = {[LOG] = {"log", required_argument, NULL, LOG},
                                          [SERVER] = {"server", required_argument, NULL, SERVER}};
    for (int i = 0; i < NUMBERS; i++)
        options[i] = (struct option){numbers[i].name, required_argument, NULL, i};
    for (;;) {
        int option = getopt_long(argc, argv, "", options, NULL);
        if (option == -1)
            return log_name != NULL && server_name != NULL;
        if (option == '?')
            return 0;
        if (option == LOG)
            log_name = optarg;
        else if (option == SERVER)
            server_name = optarg;
        else
            *numbers[option].number = strtoull(optarg, NULL, 10);
    }
}

static const char *add_queries(char *const *texts, const struct address *server) {
    const char *wrong = *texts == NULL ? "no query is named" : NULL;
    for (; *texts != NULL && wrong == NULL; texts++)
        wrong = add_query(*texts, server);
    return wrong;
}

static const char *open_all(char *const *texts) {
    struct address server;
    const char *wrong = address_of_text(server_name, "123", 0, &server);
    if (wrong == NULL)
        wrong = add_queries(texts, &server);
    if (wrong == NULL)
        wrong = open_flood(&server);
    if (wrong == NULL)
        wrong = watch_sockets();
    if (wrong == NULL && open_log(log_name) != 0)
        wrong = "the log cannot be opened";
    for (size_t i = 0; i < link_count; i++)
        draw_next_kiss(&links[i]);
    return wrong;
}

static volatile sig_atomic_t ended;

static void end(int signal_number) {
    (void)signal_number;
    ended = 1;
}

int main(int argc, char **argv) {
    struct sigaction ending = {.sa_handler = end};
    sigaction(SIGTERM, &ending, NULL);
    if (!read_options(argc, argv)) {
        fputs("soak-relay: --log FILE and --server ADDRESS:PORT are needed; other options have a number\n", stderr);
        return 2;
    }
    seed_random(seed);
    const char *wrong = open_all(argv + optind);
    if (wrong != NULL) {
        fprintf(stderr, "soak-relay: %s\n", wrong);
        return 1;
    }
    puts("ready");
    fflush(stdout);
    relay_until(&ended);
    write_counts();
    return close_log() == 0 ? 0 : 1;
}
