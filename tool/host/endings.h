/* How a load that went wrong ends: what is said, and what to do next. Each gives its exit code. */
#ifndef ENDINGS_H
#define ENDINGS_H

#include "loading.h"

/* What happened to the line, where that ends the load: it has hung up, or the user asks for the end; else DONE. */
int end_by_event(loading *l, line_event happened);

/* No greeting came. */
int end_ungreeted(const loading *l);

/* uartboot has greeted. */
int end_uartboot(const loading *l);

/* The header was not answered; or with NAK; or with `count` bytes that mean nothing, and perhaps greetings. */
int end_unanswered(const loading *l);
int end_header_refused(void);
int end_header_nonsense(const loading *l, size_t count);

/* The line takes no more bytes; the chip has sent a byte while the code was on its way; no checksum came; or not the
   right one; or a byte after it. */
int end_stuck(loading *l);
int end_interrupted(loading *l, uint8_t byte);
int end_without_checksum(loading *l);
int end_wrong_checksum(uint8_t wanted, uint8_t got);
int end_after_checksum(uint8_t byte);

#endif
