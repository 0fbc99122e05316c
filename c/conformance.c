/* Answers conformance lines (docs/CONFORMANCE.md) through the archive, one line in, one line out. */
#include "lines.h"
#include "record_lines.h"

#include <stdio.h>
#include <stdlib.h>
#include <string.h>

enum { LONGEST_LINE = 2209, LONGEST_READ = 80, LONGEST_ADDED = 1100 };

/* No order is told by 01, and not by the number that the call gives. */
static void difference(struct rest *rest) {
    uint64_t x = number(rest, 8), y = number(rest, 8);
    int whole = is_whole(rest);
    int64_t units = 0;
    uint32_t refusal = whole ? pongulvesz_difference(x, y, &units) : 0;
    uint64_t numbers[] = {(uint64_t)units};
    answer_numbers(whole, refusal == PONGULVESZ_NO_ORDER ? 1 : refusal, numbers, (size_t[]){8}, 1);
}

static void measure(struct rest *rest) {
    uint64_t t1 = number(rest, 8), t2 = number(rest, 8), t3 = number(rest, 8), t4 = number(rest, 8);
    int whole = is_whole(rest);
    int64_t offset = 0, delay = 0;
    uint32_t half = 0;
    uint32_t refusal = whole ? pongulvesz_measure(t1, t2, t3, t4, &offset, &half, &delay) : 0;
    uint64_t numbers[] = {(uint64_t)offset, half, (uint64_t)delay};
    answer_numbers(whole, refusal, numbers, (size_t[]){8, 1, 8}, 3);
}

static const size_t field_widths[PONGULVESZ_FIELDS] = {1, 1, 1, 1, 1, 1, 4, 4, 4, 8, 8, 8, 8};

static void read_fields(struct rest *rest) {
    struct slice packet = take_packet(rest);
    int whole = is_whole(rest);
    uint64_t fields[PONGULVESZ_FIELDS] = {0};
    uint32_t refusal = whole ? pongulvesz_read_fields(packet.octets, packet.length, fields) : 0;
    free(packet.octets);
    answer_numbers(whole, refusal, fields, field_widths, PONGULVESZ_FIELDS);
}

static void write_fields(struct rest *rest) {
    struct slice buffer = take_buffer(rest);
    uint64_t fields[PONGULVESZ_FIELDS];
    for (size_t i = 0; i < PONGULVESZ_FIELDS; i++)
        fields[i] = number(rest, field_widths[i]);
    int whole = is_whole(rest);
    answer(whole, whole ? pongulvesz_write_fields(fields, buffer.octets, buffer.length) : 0, buffer, none);
}

static void date(struct rest *rest) {
    uint64_t timestamp = number(rest, 8);
    int whole = is_whole(rest);
    uint32_t year = 0, month = 0, day = 0, hour = 0, minute = 0, second = 0, fraction = 0;
    uint32_t refusal = 0;
    if (whole)
        refusal = pongulvesz_date(timestamp, &year, &month, &day, &hour, &minute, &second, &fraction);
    uint64_t numbers[] = {year, month, day, hour, minute, second, fraction};
    answer_numbers(whole, refusal, numbers, (size_t[]){4, 1, 1, 1, 1, 1, 4}, 7);
}

static void timestamp_of_date(struct rest *rest) {
    uint32_t year = (uint32_t)number(rest, 4), month = (uint32_t)number(rest, 1), day = (uint32_t)number(rest, 1);
    uint32_t hour = (uint32_t)number(rest, 1), minute = (uint32_t)number(rest, 1), second = (uint32_t)number(rest, 1);
    uint32_t fraction = (uint32_t)number(rest, 4);
    int whole = is_whole(rest);
    uint64_t timestamp = 0;
    uint32_t refusal = 0;
    if (whole)
        refusal = pongulvesz_timestamp_of_date(year, month, day, hour, minute, second, fraction, &timestamp);
    answer_numbers(whole, refusal, &timestamp, (size_t[]){8}, 1);
}

static void precision(struct rest *rest) {
    uint64_t tick = number(rest, 8);
    int whole = is_whole(rest);
    int32_t exponent = 0;
    uint32_t refusal = whole ? pongulvesz_precision(tick, &exponent) : 0;
    uint64_t numbers[] = {(uint64_t)(uint8_t)exponent};
    answer_numbers(whole, refusal, numbers, (size_t[]){1}, 1);
}

/* The debt is shown after a refusal too, and of a tick what was paid, which is 0 then. */
static void entry(struct rest *rest) {
    int64_t debt = signed64(number(rest, 8)), offset = signed64(number(rest, 8));
    uint32_t half = (uint32_t)number(rest, 1);
    int whole = is_whole(rest);
    uint32_t refusal = whole ? pongulvesz_entry(&debt, offset, half) : 0;
    uint64_t numbers[] = {(uint64_t)debt};
    answer(whole, refusal, octets_of(numbers, (size_t[]){8}, 1), none);
}

static void tick(struct rest *rest) {
    int64_t debt = signed64(number(rest, 8)), paid = 0;
    uint64_t limit = number(rest, 8);
    int whole = is_whole(rest);
    uint32_t refusal = whole ? pongulvesz_tick(&debt, limit, &paid) : 0;
    uint64_t numbers[] = {(uint64_t)paid, (uint64_t)debt};
    answer(whole, refusal, octets_of(numbers, (size_t[]){8, 8}, 2), none);
}

static void broadcast(struct rest *rest) {
    uint32_t synchronised = take_flag(rest), leap = (uint32_t)number(rest, 1);
    int32_t precision = signed8((uint8_t)number(rest, 1));
    uint32_t identifier = (uint32_t)number(rest, 4);
    uint64_t reference = number(rest, 8);
    uint32_t version = (uint32_t)number(rest, 1), poll = (uint32_t)number(rest, 1);
    uint64_t t3 = number(rest, 8);
    struct slice buffer = take_buffer(rest);
    int whole = is_whole(rest);
    uint32_t refusal = 0;
    if (whole)
        refusal = pongulvesz_broadcast(synchronised, leap, precision, identifier, reference, version, poll, t3,
                                       buffer.octets, buffer.length);
    answer(whole, refusal, buffer, none);
}

static void broadcast_arrival(struct rest *rest) {
    uint64_t t4 = number(rest, 8);
    struct slice packet = take_packet(rest);
    int whole = is_whole(rest);
    int64_t difference = 0;
    uint32_t refusal = whole ? pongulvesz_broadcast_arrival(t4, packet.octets, packet.length, &difference) : 0;
    uint64_t numbers[] = {(uint64_t)difference};
    free(packet.octets);
    answer_numbers(whole, refusal, numbers, (size_t[]){8}, 1);
}

/* Every field from the cursor on: how many, and of each its type, its body's length and its body. */
static uint32_t walk(struct slice packet, size_t cursor, struct slice *told) {
    uint32_t found = 0, field_type = 0;
    size_t start = 0, end = 0;
    append(told, 0, 1);
    for (;;) {
        uint32_t refusal =
            pongulvesz_next_field(packet.octets, packet.length, &cursor, &found, &field_type, &start, &end);
        if (refusal != 0 || found == 0)
            return refusal;
        told->octets[0]++;
        append(told, field_type, 2);
        append(told, end - start, 2);
        memcpy(&told->octets[told->length], &packet.octets[start], end - start);
        told->length += end - start;
    }
}

/* What is told has an octet more than the packet at most: type and length stand in the place of the field's head. */
static void fields(struct rest *rest) {
    struct slice packet = take_packet(rest);
    int whole = is_whole(rest);
    size_t cursor = 0;
    uint32_t refusal = whole ? pongulvesz_fields(packet.octets, packet.length, &cursor) : 0;
    struct slice told = lend(1 + packet.length);
    told.length = 0;
    if (whole && refusal == 0)
        refusal = walk(packet, cursor, &told);
    free(packet.octets);
    answer(whole, refusal, told, none);
}

static void add_field(struct rest *rest) {
    struct slice buffer = lend_filled((size_t)number(rest, 2));
    size_t size = (size_t)number(rest, 2);
    uint32_t field_type = (uint32_t)number(rest, 2);
    size_t body_length = (size_t)number(rest, 2);
    struct slice body = take(rest, body_length);
    if (buffer.length > LONGEST_ADDED || body_length > LONGEST_ADDED || rest->length > buffer.length)
        rest->well_formed = 0;
    else
        memcpy(buffer.octets, rest->octets, rest->length);
    uint32_t refusal = 0;
    if (rest->well_formed)
        refusal = pongulvesz_add_field(buffer.octets, buffer.length, &size, field_type, body.octets, body.length);
    uint64_t numbers[] = {refusal == 0 ? size : 0};
    free(body.octets);
    answer(rest->well_formed, refusal, octets_of(numbers, (size_t[]){2}, 1), buffer);
}

static void unix_time(struct rest *rest) {
    uint64_t timestamp = number(rest, 8);
    int whole = is_whole(rest);
    int64_t seconds = 0;
    uint32_t nanoseconds = 0;
    uint32_t refusal = whole ? pongulvesz_unix_time(timestamp, &seconds, &nanoseconds) : 0;
    uint64_t numbers[] = {(uint64_t)seconds, nanoseconds};
    answer_numbers(whole, refusal, numbers, (size_t[]){8, 4}, 2);
}

static void timestamp_of_unix_time(struct rest *rest) {
    int64_t seconds = signed64(number(rest, 8));
    uint32_t nanoseconds = (uint32_t)number(rest, 4);
    int whole = is_whole(rest);
    uint64_t timestamp = 0;
    uint32_t refusal = whole ? pongulvesz_timestamp_of_unix_time(seconds, nanoseconds, &timestamp) : 0;
    answer_numbers(whole, refusal, &timestamp, (size_t[]){8}, 1);
}

static void write_count(struct rest *rest) {
    uint32_t count = (uint32_t)number(rest, 4);
    struct slice buffer = take_buffer(rest);
    int whole = is_whole(rest);
    answer(whole, whole ? pongulvesz_write_count(count, buffer.octets, buffer.length) : 0, buffer, none);
}

static void read_count(struct rest *rest) {
    if (rest->length > LONGEST_READ)
        rest->well_formed = 0;
    struct slice octets = take(rest, rest->length);
    int whole = is_whole(rest);
    uint32_t count = 0;
    uint32_t refusal = whole ? pongulvesz_read_count(octets.octets, octets.length, &count) : 0;
    uint64_t numbers[] = {count};
    free(octets.octets);
    answer_numbers(whole, refusal, numbers, (size_t[]){4}, 1);
}

static void fresh(struct rest *rest) {
    struct slice image = take_slice(rest);
    int whole = is_whole(rest);
    answer(whole, whole ? pongulvesz_fresh(image.octets, image.length) : 0, image, none);
}

static void ask(struct rest *rest) {
    struct slice image = take_slice(rest);
    struct slice buffer = take_buffer(rest);
    uint32_t version = (uint32_t)number(rest, 4);
    uint64_t clock = number(rest, 8), token = number(rest, 8), uptime = number(rest, 8);
    int whole = is_whole(rest);
    uint32_t refusal = 0;
    if (whole)
        refusal = pongulvesz_ask(image.octets, image.length, buffer.octets, buffer.length, version, clock, token, uptime);
    answer(whole, refusal, image, buffer);
}

static void arrival(struct rest *rest) {
    struct slice image = take_slice(rest);
    struct slice told = take_slice(rest);
    uint64_t t4 = number(rest, 8);
    uint32_t alternate = (uint32_t)number(rest, 4);
    struct slice packet = take_packet(rest);
    int whole = is_whole(rest);
    uint32_t refusal = 0;
    if (whole)
        refusal = pongulvesz_arrival(image.octets, image.length, told.octets, told.length, t4, alternate, packet.octets,
                                     packet.length);
    free(packet.octets);
    answer(whole, refusal, image, told);
}

static void give_up(struct rest *rest) {
    struct slice image = take_slice(rest);
    uint64_t uptime = number(rest, 8);
    int whole = is_whole(rest);
    answer(whole, whole ? pongulvesz_give_up(image.octets, image.length, uptime) : 0, image, none);
}

/* What the two lines of a reply have in common, past the settings before the identifier. */
static void reply(struct rest *rest, uint32_t synchronised, uint32_t leap, int32_t precision) {
    uint32_t identifier = (uint32_t)number(rest, 4);
    uint64_t reference = number(rest, 8), t2 = number(rest, 8), t3 = number(rest, 8);
    struct slice buffer = take_buffer(rest);
    struct slice request = take_packet(rest);
    int whole = is_whole(rest);
    uint32_t refusal = 0;
    if (whole)
        refusal = pongulvesz_reply(synchronised, leap, precision, identifier, reference, t2, t3, buffer.octets,
                                   buffer.length, request.octets, request.length);
    free(request.octets);
    answer(whole, refusal, buffer, none);
}

static void narrow_reply(struct rest *rest) {
    uint32_t synchronised = take_flag(rest), leap = (uint32_t)number(rest, 1);
    reply(rest, synchronised, leap, signed8((uint8_t)number(rest, 1)));
}

static void wide_reply(struct rest *rest) {
    uint32_t synchronised = (uint32_t)number(rest, 4), leap = (uint32_t)number(rest, 4);
    reply(rest, synchronised, leap, signed32((uint32_t)number(rest, 4)));
}

static void constants(struct rest *rest) {
    uint64_t numbers[] = {0, PONGULVESZ_SECOND, PONGULVESZ_LIMIT};
    answer_numbers(is_whole(rest), 0, numbers, (size_t[]){8, 8, 8}, 3);
}

static void answer_line(const uint8_t *octets, size_t length) {
    struct rest rest = {octets, length, 1};
    switch (number(&rest, 1)) {
    case 0x01: difference(&rest); break;
    case 0x02: measure(&rest); break;
    case 0x03: read_fields(&rest); break;
    case 0x04: write_fields(&rest); break;
    case 0x05: date(&rest); break;
    case 0x06: timestamp_of_date(&rest); break;
    case 0x07: precision(&rest); break;
    case 0x08: record_ask(&rest); break;
    case 0x09: record_arrival(&rest); break;
    case 0x0A: record_give_up(&rest); break;
    case 0x0B: narrow_reply(&rest); break;
    case 0x0C: entry(&rest); break;
    case 0x0D: tick(&rest); break;
    case 0x0E: list_ask(&rest); break;
    case 0x0F: list_arrival(&rest); break;
    case 0x10: list_give_up(&rest); break;
    case 0x11: broadcast(&rest); break;
    case 0x12: broadcast_arrival(&rest); break;
    case 0x13: fields(&rest); break;
    case 0x14: add_field(&rest); break;
    case 0x15: unix_time(&rest); break;
    case 0x16: timestamp_of_unix_time(&rest); break;
    case 0x17: write_count(&rest); break;
    case 0x18: read_count(&rest); break;
    case 0x19: fresh(&rest); break;
    case 0x1A: ask(&rest); break;
    case 0x1B: arrival(&rest); break;
    case 0x1C: give_up(&rest); break;
    case 0x1D: wide_reply(&rest); break;
    case 0xF0: record_fresh(&rest); break;
    case 0xF1: constants(&rest); break;
    default: answer(0, 0, none, none);
    }
}

/* The value of a hexadecimal digit, and 16 of any other character. */
static unsigned digit(int c) {
    if ('0' <= c && c <= '9')
        return (unsigned)(c - '0');
    if ('A' <= c && c <= 'F')
        return (unsigned)(c - 'A') + 10;
    if ('a' <= c && c <= 'f')
        return (unsigned)(c - 'a') + 10;
    return 16;
}

/* The next character, or EOF. */
static int next_character(void) {
    static char text[1 << 16];
    static size_t at, length;
    if (at == length) {
        at = 0;
        length = fread(text, 1, sizeof text, stdin);
    }
    return at < length ? (unsigned char)text[at++] : EOF;
}

/* Reads a line and answers it; 0 at the end of the input. A line of an odd number of digits, with another character or too long has no octets, and so is
 * malformed. */
static int next_line(void) {
    static uint8_t octets[LONGEST_LINE];
    size_t digits = 0;
    int well_formed = 1;
    int c = next_character();
    if (c == EOF)
        return 0;
    for (; c != EOF && c != '\n'; c = next_character()) {
        unsigned value = digit(c);
        if (value == 16 || digits == 2 * (size_t)LONGEST_LINE) {
            well_formed = 0;
            continue;
        }
        uint8_t *octet = &octets[digits / 2];
        *octet = (uint8_t)(digits % 2 == 0 ? value << 4 : *octet | value);
        digits++;
    }
    answer_line(octets, well_formed && digits % 2 == 0 ? digits / 2 : 0);
    return 1;
}

int main(void) {
    while (next_line())
        continue;
    return ferror(stdin) || fflush(stdout) != 0;
}
