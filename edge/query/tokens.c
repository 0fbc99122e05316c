#include "tokens.h"

#include <errno.h>
#include <stdio.h>
#include <sys/random.h>

/* Where the kernel is too old for getrandom. */
static int read_device(uint64_t *number) {
    FILE *device = fopen("/dev/urandom", "rb");
    int had = device != NULL && fread(number, sizeof *number, 1, device) == 1;
    if (device != NULL)
        fclose(device);
    return had;
}

/* getrandom waits until the source is seeded, and gives so few octets whole, or none where a signal came first. */
static int read_source(uint64_t *number) {
    ssize_t length;
    do
        length = getrandom(number, sizeof *number, 0);
    while (length < 0 && errno == EINTR);
    return length == sizeof *number || read_device(number);
}

int random_token(uint64_t *token) {
    int had;
    do
        had = read_source(token);
    while (had && *token == 0);
    return had;
}
