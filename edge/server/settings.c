#include "settings.h"

#include "clocks.h"

#include <errno.h>
#include <getopt.h>
#include <pongulvesz.h>
#include <stdio.h>
#include <stdlib.h>
#include <string.h>

/* recvmmsg and sendmmsg take at most 1024 messages. */
enum { DEFAULT_BATCH = 64, LARGEST_BATCH = 1024 };

enum { WRONG_OPTION = 2 };

static const char help[] =
    "Usage: pongulvesz-server [OPTION...] [ADDRESS...]\n"
    "Answers SNTP requests (RFC 4330) on UDP, at each ADDRESS: 192.0.2.1, 192.0.2.1:PORT, [2001:db8::1]:PORT,\n"
    "NAME:PORT, or :PORT for every address of IPv4 and of IPv6. The default is :123. Port 0 lets the kernel choose.\n"
    "\n"
    "  --synchronised       the system's clock is right; without this option every reply is the kiss INIT\n"
    "  --leap 0|1|2         leap indicator: none, the day's last minute has 61 seconds, or 59; default 0\n"
    "  --precision N        precision, -32 to 0, an exponent of 2 in seconds; default: of the clock's smallest step\n"
    "  --identifier TEXT    reference identifier, 1 to 4 characters of ASCII; default LOCL\n"
    "  --reference SECONDS  when the clock was last set, in Unix time; default: the start of the program\n"
    "  --batch N            requests taken and replies sent by one call of the kernel at most, 1 to 1024; default 64\n"
    "  --help, --version\n"
    "\n"
    "SIGUSR1 prints what was counted; SIGTERM and SIGINT print it and end the program.\n"
    "This program is not proved; what it decides is decided by the proved archive (docs/C.md).\n";

static const char version[] = "pongulvesz-server " EDGE_VERSION "\n";

static const struct option options[] = {
    {"synchronised", no_argument, NULL, 's'},     {"leap", required_argument, NULL, 'l'},
    {"precision", required_argument, NULL, 'p'},  {"identifier", required_argument, NULL, 'i'},
    {"reference", required_argument, NULL, 'r'},  {"batch", required_argument, NULL, 'b'},
    {"help", no_argument, NULL, 'h'},             {"version", no_argument, NULL, 'v'},
    {NULL, 0, NULL, 0},
};

/* The whole number of a text, where it is in the range. */
static int number_of_text(const char *text, int64_t least, int64_t greatest, int64_t *number) {
    char *end;
    errno = 0;
    long long read = strtoll(text, &end, 10);
    if (end == text || *end != '\0' || errno != 0 || read < least || read > greatest)
        return 0;
    *number = read;
    return 1;
}

/* The reference identifier of a text: left-justified, zero padded. */
static int identifier_of_text(const char *text, uint32_t *identifier) {
    size_t length = strlen(text);
    if (length < 1 || length > 4)
        return 0;
    *identifier = 0;
    for (size_t i = 0; i < 4; i++) {
        unsigned char character = i < length ? (unsigned char)text[i] : 0;
        if (i < length && (character < ' ' || character > '~'))
            return 0;
        *identifier = *identifier << 8 | character;
    }
    return 1;
}

/* The smallest step between two readings of the clock, in units of 2^-32 s. A clock that took none counts as one that
 * ticks every second. */
static uint64_t clock_tick(void) {
    enum { READINGS = 1000 };
    uint64_t smallest = UINT64_C(1) << 32, last = timestamp_now();
    for (int i = 0; i < READINGS; i++) {
        uint64_t reading = timestamp_now();
        if (reading != last && reading - last < smallest)
            smallest = reading - last;
        last = reading;
    }
    return smallest;
}

static void set_defaults(struct settings *settings) {
    *settings = (struct settings){.reference = timestamp_now(), .batch = DEFAULT_BATCH};
    pongulvesz_precision(clock_tick(), &settings->precision);
    identifier_of_text("LOCL", &settings->identifier);
}

static const char *words_of_refusal(uint32_t number) {
    return number == 0 ? NULL : pongulvesz_words(number);
}

/* Sets what one option names. Returns NULL, or in words what is wrong. */
static const char *set_option(struct settings *settings, int option, const char *text) {
    int64_t number = 0;
    switch (option) {
    case 's':
        settings->synchronised = 1;
        return NULL;
    case 'l':
        if (!number_of_text(text, 0, UINT32_MAX, &number))
            return "not a number from 0 to 2";
        settings->leap = (uint32_t)number;
        return NULL;
    case 'p':
        if (!number_of_text(text, INT32_MIN, INT32_MAX, &number))
            return "not a number from -32 to 0";
        settings->precision = (int32_t)number;
        return NULL;
    case 'i':
        return identifier_of_text(text, &settings->identifier) ? NULL : "not 1 to 4 characters of ASCII";
    case 'r':
        if (!number_of_text(text, INT64_MIN, INT64_MAX, &number))
            return "not a Unix time in whole seconds";
        return words_of_refusal(pongulvesz_timestamp_of_unix_time(number, 0, &settings->reference));
    default:
        if (!number_of_text(text, 1, LARGEST_BATCH, &number))
            return "not a number from 1 to 1024";
        settings->batch = (unsigned)number;
        return NULL;
    }
}

/* The number by which the archive refuses to reply with these settings, or 0, tried on a request of its own client. */
static uint32_t refusal_of(const struct settings *settings) {
    uint8_t image[PONGULVESZ_IMAGE] = {0}, request[PONGULVESZ_PACKET], reply[PONGULVESZ_PACKET];
    const uint64_t any_time = 1, token = 1;
    uint32_t number = pongulvesz_ask(image, sizeof image, request, sizeof request, 4, any_time, token, 0);
    if (number != 0)
        return number;
    return pongulvesz_reply(settings->synchronised, settings->leap, settings->precision, settings->identifier,
                            settings->reference, any_time, any_time, reply, sizeof reply, request, sizeof request);
}

int settings_of_options(int argc, char **argv, struct settings *settings) {
    int option, at = 0;
    set_defaults(settings);
    while ((option = getopt_long(argc, argv, "", options, &at)) != -1) {
        if (option == 'h' || option == 'v')
            return fputs(option == 'h' ? help : version, stdout) < 0 ? EXIT_FAILURE : EXIT_SUCCESS;
        if (option == '?') { /* getopt_long has said what is wrong */
            fputs("pongulvesz-server: --help lists the options\n", stderr);
            return WRONG_OPTION;
        }
        const char *words = set_option(settings, option, optarg);
        if (words != NULL) {
            fprintf(stderr, "pongulvesz-server: --%s %s: %s\n", options[at].name, optarg, words);
            return WRONG_OPTION;
        }
    }
    settings->addresses = argv + optind;
    settings->address_count = argc - optind;
    uint32_t number = refusal_of(settings);
    if (number == 0)
        return GO_ON;
    fprintf(stderr, "pongulvesz-server: settings refused by %u: %s\n", (unsigned)number, pongulvesz_words(number));
    return WRONG_OPTION;
}
