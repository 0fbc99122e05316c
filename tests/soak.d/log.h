/* What the relay did, for the checker (log.py): records of 48 octets, in the machine's own order of octets. */
#ifndef SOAK_LOG_H
#define SOAK_LOG_H

#include <stdint.h>

enum kind {
    NOTHING,   /* not written */
    ASKED,     /* a request came from the query */
    SENT,      /* a request that the server answers went to it */
    REPLIED,   /* a true reply went to the query */
    KISSED,    /* a kiss with the right originate timestamp went to the query; receive: its code */
    REFUSABLE, /* a damaged reply went to the query */
    OVERFLOWN  /* the kernel dropped packets for want of room between `came` and `went`; receive: how many */
};

struct record {
    uint16_t kind, link;
    uint32_t unused;
    uint64_t token; /* the request's transmit timestamp, or the reply's originate timestamp */
    uint64_t receive, transmit;
    uint64_t came, went; /* the system's clock in nanoseconds: after it was received, and before it was sent */
};

/* Both return 0, or -1 where the file cannot be opened or was not written. */
int open_log(const char *name);
int close_log(void);

void write_record(const struct record *record);

#endif
