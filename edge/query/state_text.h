/* The text of a state file (state.h), from a state and back. */
#ifndef QUERY_STATE_TEXT_H
#define QUERY_STATE_TEXT_H

#include "client.h"

/* Room for the text, its terminating zero included: a server and its image for each, and all else. */
enum { STATE_TEXT = MOST_SERVERS * (SERVER_TEXT + 100) + 400 };

/* Writes the text of a state of these servers. Returns its length. */
size_t text_of_state(const struct state *state, const char *const *servers, char text[STATE_TEXT]);

/* Reads the text, which ends with a zero; the state has the number of servers already. Returns whether it is exactly
 * the text that this state has; else it says in why what is wrong with it. */
int state_of_text(const char *text, size_t length, const char *const *servers, struct state *state,
                  char why[SERVER_TEXT]);

#endif
