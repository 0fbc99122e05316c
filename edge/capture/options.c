#include "options.h"

#include <errno.h>
#include <getopt.h>
#include <pongulvesz.h>
#include <stdio.h>
#include <stdlib.h>

enum { NTP_PORT = 123 };

/* The least that the rules let a client wait for a reply, in seconds (docs/RULES.md, refusal 20). */
static const unsigned long LEAST_GIVE_UP = PONGULVESZ_LIMIT / PONGULVESZ_SECOND;

static const char help[] =
    "Usage: pongulvesz-capture [OPTION...] FILE\n"
    "Writes what a capture file (pcap or pcapng) has of the exchanges between one SNTP client and one server\n"
    "as lines for the replay (docs/RULES.md, \"Replay lines\"). FILE - is standard input.\n"
    "\n"
    "  --client ADDRESS[:PORT]   the client; without it the file must tell of one client alone\n"
    "  --server ADDRESS[:PORT]   the server; without it the file must tell of one server alone\n"
    "  --port N                  the port of the server, 123 where neither this nor --server gives it\n"
    "  --give-up SECONDS         give a request up if the next comes SECONDS later or more: 16 or more\n"
    "  --spread                  move uptimes forward, so that no request is refused for having come too soon\n"
    "  --quiet                   no summary on standard error\n"
    "  --help, --version\n"
    "\n"
    "This program is not proved; what it decides is decided by the proved archive (docs/C.md).\n";

static const struct option names[] = {
    {"client", required_argument, NULL, 'c'},  {"server", required_argument, NULL, 's'},
    {"port", required_argument, NULL, 'p'},    {"give-up", required_argument, NULL, 'g'},
    {"spread", no_argument, NULL, 'm'},        {"quiet", no_argument, NULL, 'q'},
    {"help", no_argument, NULL, 'h'},          {"version", no_argument, NULL, 'v'},
    {NULL, 0, NULL, 0},
};

static enum parsed wrong(const char *option, const char *value, const char *words) {
    fprintf(stderr, "pongulvesz-capture: %s %s: %s\n", option, value, words);
    return STOP_WRONG;
}

/* A decimal number from least to most; 0 is returned of any other text. */
static int number_of_text(const char *text, unsigned long least, unsigned long most, unsigned long *number) {
    char *end;
    errno = 0;
    *number = strtoul(text, &end, 10);
    return errno == 0 && text[0] >= '0' && text[0] <= '9' && *end == '\0' && *number >= least && *number <= most;
}

static enum parsed take_endpoint(const char *option, const char *text, struct endpoint *endpoint) {
    const char *words = endpoint_of_text(text, endpoint);
    return words == NULL ? RUN : wrong(option, text, words);
}

static enum parsed take_option(int option, struct options *options, uint16_t *port) {
    unsigned long number = 0;
    switch (option) {
    case 'c':
        return take_endpoint("--client", optarg, &options->client);
    case 's':
        return take_endpoint("--server", optarg, &options->server);
    case 'p':
        if (!number_of_text(optarg, 1, 65535, &number))
            return wrong("--port", optarg, "a port is a number from 1 to 65535");
        *port = (uint16_t)number;
        return RUN;
    case 'g':
        if (!number_of_text(optarg, LEAST_GIVE_UP, UINT32_MAX, &number))
            return wrong("--give-up", optarg, "the rules let a client give up after 16 seconds or more");
        options->give_up = number;
        return RUN;
    case 'm':
        options->spread = 1;
        return RUN;
    case 'q':
        options->quiet = 1;
        return RUN;
    case 'h':
        fputs(help, stdout);
        return STOP_WELL;
    case 'v':
        puts("pongulvesz-capture " EDGE_VERSION);
        return STOP_WELL;
    default:
        fputs("pongulvesz-capture: --help tells the options\n", stderr);
        return STOP_WRONG;
    }
}

enum parsed parse_options(int count, char **arguments, struct options *options) {
    uint16_t port = NTP_PORT;
    int option;
    *options = (struct options){.give_up = LEAST_GIVE_UP};
    while ((option = getopt_long(count, arguments, "", names, NULL)) != -1) {
        enum parsed parsed = take_option(option, options, &port);
        if (parsed != RUN)
            return parsed;
    }
    if (optind != count - 1) {
        fputs("pongulvesz-capture: one file is wanted; --help tells the options\n", stderr);
        return STOP_WRONG;
    }
    options->file = arguments[optind];
    if (options->server.port == 0)
        options->server.port = port;
    return RUN;
}
