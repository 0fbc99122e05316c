/* Errors of the program itself, in words. */
#ifndef QUERY_ERRORS_H
#define QUERY_ERRORS_H

/* Writes a line on standard error, with the program's name before it. */
void complain(const char *form, ...) __attribute__((format(printf, 1, 2)));

#endif
