/* The conformance lines of client records, 08 to 0A and F0, and of lists of them, 0E to 10. */
#ifndef RECORD_LINES_H
#define RECORD_LINES_H

#include "lines.h"

void record_fresh(struct rest *rest);
void record_ask(struct rest *rest);
void record_arrival(struct rest *rest);
void record_give_up(struct rest *rest);
void list_ask(struct rest *rest);
void list_arrival(struct rest *rest);
void list_give_up(struct rest *rest);

#endif
