/* Whether the kernel dropped packets because a socket had no room for them, which no program under test can help. */
#ifndef SOAK_OVERFLOW_H
#define SOAK_OVERFLOW_H

/* Compares the kernel's counts for UDP (RcvbufErrors in /proc/net/snmp and snmp6) with what they were at the call
 * before, and records a rise. */
void watch_overflow(void);

#endif
