/* pongulvesz-capture: a capture file to lines for the replay. */
#include "capture_file.h"
#include "datagram.h"
#include "frames.h"
#include "options.h"
#include "stream.h"
#include "summary.h"

#include <errno.h>
#include <stdlib.h>
#include <string.h>

/* The uptime of a record: the steps forward from each record to the next, summed up, in units of 2^-32 s. A clock that
 * was set back during the capture does not take the uptime back. */
struct uptime {
    uint64_t latest; /* the timestamp of the record before, or 0 before any */
    uint64_t units;
};

struct run {
    struct options options;
    struct counts counts;
    struct uptime uptime;
    struct stream stream;
    struct frames frames;
    struct capture_file capture;
};

static int failed(const char *file, const char *words) {
    fprintf(stderr, "pongulvesz-capture: %s: %s\n", file, words);
    return EXIT_FAILURE;
}

/* Goes forward to a record's timestamp. The difference is modulo 2^64, so that it also holds across 2036. */
static void go_to(struct run *run, uint64_t clock) {
    struct uptime *uptime = &run->uptime;
    uint64_t step = uptime->latest == 0 ? 0 : clock - uptime->latest;
    int forward = step <= INT64_MAX;
    run->counts.went_back += !forward;
    if (forward)
        uptime->units = step < UINT64_MAX - uptime->units ? uptime->units + step : UINT64_MAX;
    uptime->latest = clock;
}

/* What is cut or damaged behind its ports counts as other traffic where it is of another port, as all else does. */
static enum found find_of_port(const struct record *record, uint16_t port, struct datagram *datagram) {
    enum found found = find_datagram(record, datagram);
    int ports_known = datagram->source.port != 0 || datagram->destination.port != 0;
    return (found == FOUND_DATAGRAM || ports_known) && !is_of_port(datagram, port) ? FOUND_OTHER : found;
}

/* Takes one record. Returns 0 where memory is missing. */
static int take_record(struct run *run, const struct record *record) {
    struct datagram datagram;
    uint64_t clock = 0;
    run->counts.records++;
    if (record->damaged) {
        run->counts.found[FOUND_DAMAGED]++;
        return 1;
    }
    if (pongulvesz_timestamp_of_unix_time(record->seconds, record->nanoseconds, &clock) != 0) {
        run->counts.time_refused++;
        return 1;
    }
    go_to(run, clock);
    enum found found = find_of_port(record, run->options.server.port, &datagram);
    run->counts.found[found]++;
    if (found != FOUND_DATAGRAM)
        return 1;
    return take_datagram(&run->stream, &run->options, &datagram, run->uptime.units >> 32, clock);
}

/* Takes all records. Returns NULL, or in words why it stopped before the end of the file. */
static const char *take_records(struct run *run) {
    struct record record;
    enum reading reading;
    while ((reading = next_record(&run->capture, &record)) == READ_RECORD)
        if (!take_record(run, &record))
            return "memory is missing for its packets";
    run->counts.without_time = run->capture.without_time;
    return reading == READ_END ? NULL : run->capture.wrong;
}

static int write_and_say(struct run *run) {
    const struct pair *pair = only_pair(&run->stream);
    if (!run->options.quiet)
        say_counts(&run->counts, run->options.server.port);
    if (pair == NULL) {
        say_pairs(&run->stream, &run->options);
        return EXIT_FAILURE;
    }
    write_frames(&run->stream, pair, &run->options, &run->frames);
    if (fflush(stdout) != 0 || ferror(stdout))
        return failed("standard output", "it cannot be written to");
    if (!run->options.quiet)
        say_frames(&run->frames, &run->counts, &run->options);
    return EXIT_SUCCESS;
}

static int convert(struct run *run, FILE *file) {
    if (!begin_capture(&run->capture, file))
        return failed(run->options.file, run->capture.wrong);
    const char *wrong = take_records(run);
    int status = write_and_say(run);
    if (wrong == NULL)
        return status;
    fprintf(stderr, "pongulvesz-capture: %s: behind record %llu: %s\n", run->options.file,
            (unsigned long long)run->counts.records, wrong);
    return EXIT_FAILURE;
}

int main(int count, char **arguments) {
    static struct run run;
    enum parsed parsed = parse_options(count, arguments, &run.options);
    if (parsed != RUN)
        return parsed == STOP_WELL ? EXIT_SUCCESS : 2;
    int standard_input = strcmp(run.options.file, "-") == 0;
    FILE *file = standard_input ? stdin : fopen(run.options.file, "rb");
    if (file == NULL)
        return failed(run.options.file, strerror(errno));
    int status = convert(&run, file);
    free_stream(&run.stream);
    if (!standard_input)
        fclose(file);
    return status;
}
