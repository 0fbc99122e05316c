/* The format pcap: a header of 24 octets, then records, each of a head of 16 octets and the captured ones. */
#include "capture_file.h"

enum { HEADER = 24, HEAD = 16 };

#define MICROSECONDS UINT32_C(0xA1B2C3D4)
#define NANOSECONDS UINT32_C(0xA1B23C4D)

/* The number that the file begins with tells its byte order and the unit of its fractions. */
static int read_magic(struct capture_file *capture) {
    for (int order = LITTLE_ENDIAN_ORDER; order <= BIG_ENDIAN_ORDER; order++) {
        uint64_t magic = number_at(capture->buffer, 4, (enum byte_order)order);
        capture->order = (enum byte_order)order;
        capture->interfaces[0].units_a_second = magic == NANOSECONDS ? 1000000000 : 1000000;
        if (magic == NANOSECONDS || magic == MICROSECONDS)
            return 1;
    }
    capture->wrong = "it is neither pcap nor pcapng: its first four octets are those of no such file";
    return 0;
}

int begin_pcap(struct capture_file *capture) {
    if (!read_magic(capture))
        return 0;
    if (fill(capture, 4, HEADER - 4) != READ_RECORD) {
        capture->wrong = "it ends within its header";
        return 0;
    }
    uint64_t major = number_at(capture->buffer + 4, 2, capture->order);
    uint64_t minor = number_at(capture->buffer + 6, 2, capture->order);
    if (major != 2 || minor != 4) {
        capture->wrong = "its version of pcap is not 2.4";
        return 0;
    }
    /* the upper half of this number tells of a frame check sequence, which stands behind all that is read here */
    capture->interfaces[0].link_type = (uint32_t)number_at(capture->buffer + 20, 4, capture->order) & 0xFFFF;
    capture->interface_count = 1;
    return 1;
}

/* A fraction of a second or more is left as it is: the archive refuses such a time. */
static uint32_t nanoseconds_of(uint64_t fraction, uint64_t units_a_second) {
    uint64_t nanoseconds = fraction * (1000000000 / units_a_second);
    return nanoseconds < UINT32_MAX ? (uint32_t)nanoseconds : UINT32_MAX;
}

enum reading next_in_pcap(struct capture_file *capture, struct record *record) {
    enum reading reading = fill(capture, 0, HEAD);
    if (reading != READ_RECORD)
        return reading;
    const struct interface *interface = &capture->interfaces[0];
    uint64_t length = number_at(capture->buffer + 8, 4, capture->order);
    record->seconds = (int64_t)number_at(capture->buffer, 4, capture->order);
    record->nanoseconds = nanoseconds_of(number_at(capture->buffer + 4, 4, capture->order), interface->units_a_second);
    record->link_type = interface->link_type;
    record->original_length = number_at(capture->buffer + 12, 4, capture->order);
    record->damaged = length > record->original_length;
    if (length > LONGEST_RECORD) {
        capture->wrong = "a record says that it has more than 262144 octets, and where the next one begins is lost";
        return READ_WRONG;
    }
    record->octets = (struct octets){capture->buffer, (size_t)length};
    return length == 0 || fill(capture, 0, (size_t)length) == READ_RECORD ? READ_RECORD : READ_WRONG;
}
