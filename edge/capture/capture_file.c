#include "capture_file.h"

#include <string.h>

enum reading fill(struct capture_file *capture, size_t at, size_t length) {
    size_t got = fread(capture->buffer + at, 1, length, capture->file);
    if (got == length)
        return READ_RECORD;
    capture->wrong = "the file cannot be read to its end";
    if (ferror(capture->file))
        return READ_WRONG;
    capture->wrong = "the file ends within a record";
    return got == 0 ? READ_END : READ_WRONG;
}

int begin_capture(struct capture_file *capture, FILE *file) {
    capture->file = file;
    capture->interface_count = 0;
    capture->without_time = 0;
    enum reading reading = fill(capture, 0, 4);
    if (reading != READ_RECORD) {
        capture->wrong = reading == READ_END ? "it is empty" : "it cannot be read, or has fewer than four octets";
        return 0;
    }
    capture->is_pcapng = memcmp(capture->buffer, "\x0A\x0D\x0D\x0A", 4) == 0;
    return capture->is_pcapng ? begin_pcapng(capture) : begin_pcap(capture);
}

enum reading next_record(struct capture_file *capture, struct record *record) {
    return capture->is_pcapng ? next_in_pcapng(capture, record) : next_in_pcap(capture, record);
}
