/* A capture file, read record by record: pcap in both byte orders, of microseconds or nanoseconds, and pcapng. */
#ifndef CAPTURE_FILE_H
#define CAPTURE_FILE_H

#include "octets.h"

#include <stdio.h>

/* The greatest snap length that libpcap writes: a record that says it is longer is damaged. */
enum { LONGEST_RECORD = 262144, LONGEST_OPTIONS = 65536, MOST_INTERFACES = 256 };

/* One captured packet, with the Unix time of its capture. */
struct record {
    int64_t seconds;
    uint32_t nanoseconds;
    uint32_t link_type;
    struct octets octets;
    uint64_t original_length; /* on the wire; more than the captured octets where the snap length cut it */
    int damaged;              /* its lengths contradict each other, or its interface is not described */
};

struct interface {
    uint32_t link_type;
    uint64_t units_a_second;
    int64_t offset_seconds;
};

struct capture_file {
    FILE *file;
    int is_pcapng;
    enum byte_order order;
    struct interface interfaces[MOST_INTERFACES]; /* of the section; pcap has one */
    size_t interface_count;
    uint64_t without_time; /* packets in blocks of pcapng that have no time, or are out of use */
    const char *wrong;     /* why the rest of the file cannot be read */
    uint8_t buffer[LONGEST_RECORD + LONGEST_OPTIONS];
};

enum reading { READ_RECORD, READ_END, READ_WRONG };

/* Reads what stands before the first record. Where it is no capture file, `wrong` says why, and 0 is returned. */
int begin_capture(struct capture_file *capture, FILE *file);

/* The next record; its octets stand in the buffer until the next call. */
enum reading next_record(struct capture_file *capture, struct record *record);

/* For pcap.c and pcapng.c: fills the first octets of the buffer. */
enum reading fill(struct capture_file *capture, size_t at, size_t length);

int begin_pcap(struct capture_file *capture);
enum reading next_in_pcap(struct capture_file *capture, struct record *record);
int begin_pcapng(struct capture_file *capture);
enum reading next_in_pcapng(struct capture_file *capture, struct record *record);

#endif
