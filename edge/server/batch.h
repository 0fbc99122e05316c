/* One turn of the server: takes a batch of requests, has the archive reply to each, sends the replies. */
#ifndef SERVER_BATCH_H
#define SERVER_BATCH_H

#include "counts.h"
#include "settings.h"

struct batch;

/* Room for so many packets, or NULL where memory does not suffice. */
struct batch *new_batch(unsigned size);
void free_batch(struct batch *batch);

/* Answers what the socket has received, up to the batch's size. Never waits, and counts what fails. */
void serve(int socket, struct batch *batch, const struct settings *settings, struct counts *counts);

#endif
