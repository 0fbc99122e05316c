/* The format pcapng: blocks of a type, a length, a body and the length once more. Read are section headers, interface
 * descriptions and enhanced packet blocks; all other blocks are passed over. */
#include "capture_file.h"

enum { SECTION_HEADER = 0x0A0D0D0A, INTERFACE = 1, OUTDATED_PACKET = 2, SIMPLE_PACKET = 3, ENHANCED_PACKET = 6 };
enum { END_OF_OPTIONS = 0, RESOLUTION = 9, TIME_OFFSET = 14 };
enum { HEAD = 8, LENGTH = 4, PACKET_HEAD = 20, INTERFACE_HEAD = 8, SECTION_HEAD = 16 };

#define BYTE_ORDER_MAGIC UINT32_C(0x1A2B3C4D)

/* Seconds that are farther from 1970 than the archive takes any. */
#define FAR_AWAY (INT64_C(1) << 40)

struct block {
    uint64_t type;
    struct octets body;
};

static enum reading broken(struct capture_file *capture, const char *words) {
    capture->wrong = words;
    return READ_WRONG;
}

static uint64_t number_in(const struct capture_file *capture, const uint8_t *first, size_t width) {
    return number_at(first, width, capture->order);
}

/* Passes over octets, also where the file is a pipe. */
static enum reading pass_over(struct capture_file *capture, uint64_t count) {
    while (count > 0) {
        size_t step = count < LONGEST_RECORD ? (size_t)count : LONGEST_RECORD;
        if (fill(capture, 0, step) != READ_RECORD)
            return READ_WRONG;
        count -= step;
    }
    return READ_RECORD;
}

/* The body of a block of this type and length, whose head was read; that of a block which is passed over is empty. */
static enum reading read_body(struct capture_file *capture, struct block *block, uint64_t length) {
    int wanted = block->type == INTERFACE || block->type == ENHANCED_PACKET;
    if (length % 4 != 0 || length < HEAD + LENGTH)
        return broken(capture, "a block's length is no multiple of 4, or under 12");
    uint64_t rest = length - HEAD;
    if (wanted && rest > sizeof capture->buffer)
        return broken(capture, "a block is longer than a packet and its options can be");
    if (!wanted && pass_over(capture, rest - LENGTH) != READ_RECORD)
        return READ_WRONG;
    size_t kept = wanted ? (size_t)rest : LENGTH;
    if (fill(capture, 0, kept) != READ_RECORD)
        return READ_WRONG;
    block->body = (struct octets){capture->buffer, kept - LENGTH};
    if (number_in(capture, capture->buffer + kept - LENGTH, LENGTH) != length)
        return broken(capture, "the two lengths of a block differ");
    return READ_RECORD;
}

/* A section header tells the byte order of its own length, so the order is read first. */
static enum reading read_section_header(struct capture_file *capture, struct block *block) {
    uint8_t length[LENGTH];
    for (size_t i = 0; i < LENGTH; i++)
        length[i] = capture->buffer[4 + i];
    if (fill(capture, 0, LENGTH) != READ_RECORD)
        return READ_WRONG;
    int big = number_at(capture->buffer, LENGTH, BIG_ENDIAN_ORDER) == BYTE_ORDER_MAGIC;
    if (!big && number_at(capture->buffer, LENGTH, LITTLE_ENDIAN_ORDER) != BYTE_ORDER_MAGIC)
        return broken(capture, "a section header of pcapng does not tell its byte order");
    capture->order = big ? BIG_ENDIAN_ORDER : LITTLE_ENDIAN_ORDER;
    capture->interface_count = 0;
    uint64_t whole = number_in(capture, length, LENGTH);
    if (whole < HEAD + SECTION_HEAD + LENGTH || whole % 4 != 0 || whole > LONGEST_OPTIONS)
        return broken(capture, "a section header of pcapng has a wrong length");
    size_t rest = (size_t)whole - HEAD - LENGTH;
    if (fill(capture, 0, rest) != READ_RECORD)
        return READ_WRONG;
    block->body = (struct octets){capture->buffer, 0};
    if (number_in(capture, capture->buffer, 2) != 1)
        return broken(capture, "a section's version of pcapng is not 1");
    if (number_in(capture, capture->buffer + rest - LENGTH, LENGTH) != whole)
        return broken(capture, "the two lengths of a block differ");
    return READ_RECORD;
}

static enum reading next_block(struct capture_file *capture, struct block *block) {
    enum reading reading = fill(capture, 0, HEAD);
    if (reading != READ_RECORD)
        return reading;
    block->type = number_in(capture, capture->buffer, 4);
    if (block->type == SECTION_HEADER)
        return read_section_header(capture, block);
    return read_body(capture, block, number_in(capture, capture->buffer + 4, LENGTH));
}

/* The units in a second: a power of 10, or of 2 where the upper bit is set, or 0 where 64 bits do not hold it. */
static uint64_t units_of_resolution(uint8_t resolution) {
    unsigned exponent = resolution & 0x7F;
    if (resolution & 0x80)
        return exponent < 64 ? UINT64_C(1) << exponent : 0;
    uint64_t units = exponent < 20 ? 1 : 0;
    for (unsigned i = 0; i < exponent && units > 0; i++)
        units *= 10;
    return units;
}

static int64_t seconds_of_offset(uint64_t bits) {
    uint64_t size = bits <= INT64_MAX ? bits : UINT64_MAX - bits + 1;
    int64_t seconds = size < (uint64_t)FAR_AWAY ? (int64_t)size : FAR_AWAY;
    return bits <= INT64_MAX ? seconds : -seconds;
}

static void read_options(const struct capture_file *capture, struct interface *interface, struct octets options) {
    while (options.length >= 4) {
        uint64_t code = number_in(capture, options.first, 2);
        size_t length = (size_t)number_in(capture, options.first + 2, 2);
        struct octets value = behind(options, 4);
        if (code == END_OF_OPTIONS || length > value.length)
            return;
        if (code == RESOLUTION && length == 1)
            interface->units_a_second = units_of_resolution(value.first[0]);
        if (code == TIME_OFFSET && length == 8)
            interface->offset_seconds = seconds_of_offset(number_in(capture, value.first, 8));
        options = behind(value, (length + 3) / 4 * 4);
    }
}

static enum reading read_interface(struct capture_file *capture, struct octets body) {
    if (body.length < INTERFACE_HEAD)
        return broken(capture, "an interface description of pcapng is too short");
    if (capture->interface_count == MOST_INTERFACES)
        return broken(capture, "a section of pcapng describes more than 256 interfaces");
    struct interface *interface = &capture->interfaces[capture->interface_count++];
    *interface = (struct interface){(uint32_t)number_in(capture, body.first, 2), 1000000, 0};
    read_options(capture, interface, behind(body, INTERFACE_HEAD));
    if (interface->units_a_second == 0)
        return broken(capture, "the resolution of an interface's times is finer than 64 bits hold");
    return READ_RECORD;
}

/* Nanoseconds of a part of a second, rounded down. Units of more than 2^32 a second are a power of 10, or one of 2, for
 * which the product of 64 and 30 bits is taken in two halves. */
static uint32_t nanoseconds_of(uint64_t part, uint64_t units_a_second) {
    const uint64_t billion = 1000000000;
    if (units_a_second <= UINT64_C(1) << 32)
        return (uint32_t)(part * billion / units_a_second);
    if (units_a_second % billion == 0)
        return (uint32_t)(part / (units_a_second / billion));
    uint64_t product = (part >> 32) * billion + ((part & UINT32_MAX) * billion >> 32);
    return (uint32_t)(product / (units_a_second >> 32));
}

static void read_packet(const struct capture_file *capture, struct octets body, struct record *record) {
    *record = (struct record){.octets = {body.first, 0}, .damaged = 1};
    if (body.length < PACKET_HEAD)
        return;
    uint64_t number = number_in(capture, body.first, 4);
    uint64_t length = number_in(capture, body.first + 12, 4);
    record->original_length = number_in(capture, body.first + 16, 4);
    if (number >= capture->interface_count || length > body.length - PACKET_HEAD)
        return;
    const struct interface *interface = &capture->interfaces[number];
    uint64_t time = number_in(capture, body.first + 4, 4) << 32 | number_in(capture, body.first + 8, 4);
    uint64_t seconds = time / interface->units_a_second;
    record->seconds = (seconds < (uint64_t)FAR_AWAY ? (int64_t)seconds : FAR_AWAY) + interface->offset_seconds;
    record->nanoseconds = nanoseconds_of(time % interface->units_a_second, interface->units_a_second);
    record->link_type = interface->link_type;
    record->octets = (struct octets){body.first + PACKET_HEAD, (size_t)length};
    record->damaged = length > record->original_length;
}

int begin_pcapng(struct capture_file *capture) {
    struct block block;
    if (fill(capture, 4, HEAD - 4) == READ_RECORD && read_section_header(capture, &block) == READ_RECORD)
        return 1;
    return 0;
}

enum reading next_in_pcapng(struct capture_file *capture, struct record *record) {
    struct block block;
    enum reading reading;
    while ((reading = next_block(capture, &block)) == READ_RECORD) {
        if (block.type == ENHANCED_PACKET) {
            read_packet(capture, block.body, record);
            return READ_RECORD;
        }
        if (block.type == INTERFACE && read_interface(capture, block.body) != READ_RECORD)
            return READ_WRONG;
        capture->without_time += block.type == SIMPLE_PACKET || block.type == OUTDATED_PACKET;
    }
    return reading;
}
