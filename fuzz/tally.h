/* How often each call gave each number, and what calls told that were not refused. */
#ifndef FUZZ_TALLY_H
#define FUZZ_TALLY_H

#include "calls.h"

const char *name_of(enum call call);

/* Whether the archive has the call. */
int is_there(enum call call);

/* Whether the number is 0 or one that the header lists for the call. */
int can_give(enum call call, uint32_t number);

void count_number(enum call call, uint32_t number);

/* What a call told that gave 0: of an arrival the row of its kiss or ACCEPTED, for a list besides whether the number in
 * use went on or, past the end of the list, back; of a next field 1 if one was found, else 0; of a block which slice has
 * the least room, 0 to 3 in the order of its arguments. */
enum { KISS_ROWS = 15, ACCEPTED = KISS_ROWS, USE_WENT_ON, USE_WENT_BACK, TOLD_COUNT };
void count_told(enum call call, size_t told);

/* The same of an answer slice. */
void count_answer(enum call call, const uint8_t *answer);

/* Prints the counts, a line for each call, and then of how many that can be there were none. */
void print_counts(void);

#endif
