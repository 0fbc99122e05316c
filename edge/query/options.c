#include "options.h"

#include "errors.h"

#include <errno.h>
#include <getopt.h>
#include <pongulvesz.h>
#include <stdio.h>
#include <stdlib.h>
#include <string.h>

enum { WRONG_OPTION = 2, MOST_HASTE = 1000 };

static const char help[] =
    "Usage: pongulvesz-query [OPTION...] SERVER...\n"
    "Asks SNTP servers, 1 to 8 in order of preference, for the time. A SERVER is NAME, NAME:PORT, 192.0.2.1:PORT,\n"
    "[2001:db8::1]:PORT or 2001:db8::1; the port is 123 where none is given. The system's clock is never set.\n"
    "Without --watch: one exchange; status 0 where a reply was accepted, else 1.\n"
    "\n"
    "  --watch             go on until SIGINT or SIGTERM: ask the server in use as often as its record allows, enter\n"
    "                      accepted offsets into the ledger, and pay them each second\n"
    "  --measure           with --watch: enter nothing, pay nothing, and read the system's clock alone\n"
    "  --limit HALF-UNITS  the most that is paid in a second, 1 to 2^32, in 2^-33 s (4294967: 500 parts in a million)\n"
    "  --count N           with --watch: end after N accepted exchanges\n"
    "  --state FILE        keep the state in FILE, and go on from it; a damaged file is an error\n"
    "  --fresh N           with --state: hand in a fresh record for server N, 1 to 8, which has stopped\n"
    "  --version-number N  version of the requests, 1 to 4 (4)\n"
    "  --csv               a line of comma-separated values for each event, in place of words\n"
    "  --hasten N          for tests: uptime runs N times as fast, 1 to 1000 (1)\n"
    "  --help, --version\n"
    "\n"
    "Seconds in words are rounded to the nearest nanosecond; the units of 2^-32 s beside them are exact.\n"
    "\n"
    "This program is not proved; what it decides is decided by the proved archive (docs/C.md).\n";

enum { WATCH = 1, MEASURE, LIMIT, COUNT, STATE, FRESH, VERSION_NUMBER, CSV, HASTEN, HELP, VERSION };

static const struct option names[] = {
    {"watch", no_argument, NULL, WATCH},
    {"measure", no_argument, NULL, MEASURE},
    {"limit", required_argument, NULL, LIMIT},
    {"count", required_argument, NULL, COUNT},
    {"state", required_argument, NULL, STATE},
    {"fresh", required_argument, NULL, FRESH},
    {"version-number", required_argument, NULL, VERSION_NUMBER},
    {"csv", no_argument, NULL, CSV},
    {"hasten", required_argument, NULL, HASTEN},
    {"help", no_argument, NULL, HELP},
    {"version", no_argument, NULL, VERSION},
    {NULL, 0, NULL, 0},
};

/* A number in decimal digits alone, from least to most. */
static int number_of_text(const char *text, uint64_t least, uint64_t most, uint64_t *number) {
    if (text[0] == '\0' || text[strspn(text, "0123456789")] != '\0')
        return 0;
    errno = 0;
    *number = strtoull(text, NULL, 10);
    return errno == 0 && least <= *number && *number <= most;
}

/* Whether the archive takes this version for a request. */
static int is_version(uint64_t version) {
    uint8_t image[PONGULVESZ_IMAGE], packet[PONGULVESZ_PACKET];
    pongulvesz_fresh(image, sizeof image);
    return version <= UINT32_MAX &&
           pongulvesz_ask(image, sizeof image, packet, sizeof packet, (uint32_t)version, 1, 1, 0) == 0;
}

/* Whether the archive takes this limit for a tick. */
static int is_limit(uint64_t limit) {
    int64_t debt = 0, paid;
    return pongulvesz_tick(&debt, limit, &paid) == 0;
}

/* Takes an option that has a number. Returns whether the number is one that the option takes. */
static int take_number(int option, const char *text, struct options *options) {
    uint64_t number;
    if (!number_of_text(text, 0, UINT64_MAX, &number))
        return 0;
    switch (option) {
    case LIMIT:
        options->limit = number;
        return is_limit(number);
    case COUNT:
        options->count = number;
        return number > 0;
    case FRESH:
        if (number < 1 || number > MOST_SERVERS)
            return 0;
        options->fresh[number - 1] = 1;
        return 1;
    case VERSION_NUMBER:
        options->version = (uint32_t)number;
        return is_version(number);
    default:
        options->hasten = number;
        return 1 <= number && number <= MOST_HASTE;
    }
}

/* Takes one option. Returns whether it is taken. */
static int take_option(int option, int index, const char *argument, struct options *options) {
    switch (option) {
    case WATCH:
        options->watch = 1;
        return 1;
    case MEASURE:
        options->measure = 1;
        return 1;
    case CSV:
        options->csv = 1;
        return 1;
    case STATE:
        options->state = argument;
        return 1;
    default:
        if (take_number(option, argument, options))
            return 1;
        complain("--%s does not take %s; --help says what it takes", names[index].name, argument);
        return 0;
    }
}

/* Takes what stands behind the options. */
static int take_servers(int count, char **texts, struct options *options) {
    if (count < 1 || count > MOST_SERVERS) {
        complain("1 to 8 servers can be named, not %d", count);
        return 0;
    }
    for (int i = 0; i < count; i++) {
        options->servers[i] = texts[i];
        if (strlen(texts[i]) >= SERVER_TEXT || strpbrk(texts[i], "\r\n") != NULL) {
            complain("server %d: no name or address is like this", i + 1);
            return 0;
        }
    }
    options->server_count = (size_t)count;
    return 1;
}

/* Whether the options go together. */
static int agree(const struct options *options) {
    size_t last_fresh = MOST_SERVERS;
    while (last_fresh > 0 && !options->fresh[last_fresh - 1])
        last_fresh--;
    const char *wrong = NULL;
    if (last_fresh > options->server_count)
        wrong = "--fresh: there is no such server";
    else if (last_fresh > 0 && options->state == NULL)
        wrong = "--fresh needs --state: without a state file every record is fresh";
    else if (options->count > 0 && !options->watch)
        wrong = "--count needs --watch";
    if (wrong != NULL)
        complain("%s", wrong);
    return wrong == NULL;
}

int read_options(int argc, char **argv, struct options *options) {
    *options = (struct options){.version = 4, .limit = (UINT64_C(1) << 33) / 2000, .hasten = 1};
    int option, index = 0;
    while ((option = getopt_long(argc, argv, "", names, &index)) != -1) {
        if (option == HELP || option == VERSION) {
            fputs(option == HELP ? help : "pongulvesz-query " EDGE_VERSION "\n", stdout);
            return fflush(stdout) == 0 ? EXIT_SUCCESS : EXIT_FAILURE;
        }
        if (option == '?' || !take_option(option, index, optarg, options))
            return WRONG_OPTION;
    }
    if (!take_servers(argc - optind, argv + optind, options) || !agree(options))
        return WRONG_OPTION;
    options->measure |= !options->watch;
    return -1;
}
