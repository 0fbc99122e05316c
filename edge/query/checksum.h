/* The checksum of a state file. */
#ifndef QUERY_CHECKSUM_H
#define QUERY_CHECKSUM_H

#include <stddef.h>
#include <stdint.h>

/* CRC-32 of IEEE 802.3: whatever changes within four octets in a row gives another one. */
uint32_t crc32_of(const char *octets, size_t length);

#endif
