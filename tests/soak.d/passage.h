/* What happens to a packet between a query and the server. */
#ifndef SOAK_PASSAGE_H
#define SOAK_PASSAGE_H

#include "links.h"

/* A request came from the query of a link, or a reply from the server; `came` is what the system's clock then read, in
 * nanoseconds. */
void pass_request(struct link *link, const struct packet *request, const struct address *from, uint64_t came);
void pass_reply(struct link *link, struct packet *reply, uint64_t came);

/* Draws when the next reply of this link is made a kiss. */
void draw_next_kiss(struct link *link);

/* What the server's clock reads as the query of this link sees it, to the nanosecond. */
uint64_t server_clock(const struct link *link);

#endif
