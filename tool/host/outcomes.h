/* What is said of a command to uartboot: that it was sent, and how it ended. The latter give the exit code. */
#ifndef OUTCOMES_H
#define OUTCOMES_H

#include "commanding.h"

/* Its header has gone out: these bytes. */
void tell_sent(commanding *c, const uint8_t *header, size_t length);

/* The host's record says that it is over: done, or ended by a reason. */
int tell_outcome(commanding *c);

/* The library has refused it. */
int end_refused(const commanding *c, uint32_t number);

/* The device sends nothing, or the line takes nothing. */
int end_silent(const commanding *c);
int end_blocked(const commanding *c);

/* What happened to the line, where that ends the command: it has hung up, or the user asks for the end; else DONE. */
int end_by_line(const commanding *c, line_event happened);

#endif
