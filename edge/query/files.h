/* A file that is read whole and replaced whole, by one program at a time. Each call returns whether it could, with
 * errno where not. */
#ifndef QUERY_FILES_H
#define QUERY_FILES_H

#include <stddef.h>

/* Holds NAME.lock for this program until it ends. Errno is EAGAIN where another program holds it. */
int lock_file(const char *name);

/* Reads at most room - 1 octets, and puts a zero behind them. */
int read_file(const char *name, char *octets, size_t room, size_t *length);

/* Writes NAME.new and gives it the name: under that name stands the old file or the new one, whole, also where the
 * machine loses power. */
int replace_file(const char *name, const char *octets, size_t length);

#endif
