/* Tokens: numbers that nobody can guess, each used once. */
#ifndef QUERY_TOKENS_H
#define QUERY_TOKENS_H

#include <stdint.h>

/* A token from the system's random source, never zero. Returns whether the source gave one. */
int random_token(uint64_t *token);

#endif
