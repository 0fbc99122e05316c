/* Waits for packets and for what is due. */
#ifndef SOAK_WAITING_H
#define SOAK_WAITING_H

#include <signal.h>

/* Watches the sockets of all links and of the flood. Returns NULL, or in words what is wrong. */
const char *watch_sockets(void);

/* Relays until `ended` is set; then receives what the server still sends, for a fifth of a second. */
void relay_until(const volatile sig_atomic_t *ended);

#endif
