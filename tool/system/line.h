/* A serial line: a port, or a pseudo-terminal whose other end a host opens. */
#ifndef LINE_H
#define LINE_H

#include "claim.h"

#include <stdbool.h>
#include <stddef.h>
#include <stdint.h>

/* A byte on the wire: a start bit, eight of data, a stop bit. */
enum { BITS_OF_BYTE = 10 };

/* The speed of a port where none is given: that of the DA1453x's boot ROM, and of uartboot. */
enum { USUAL_BAUD = 115200 };

typedef struct {
    const char *path; /* what a host opens, or the port */
    int fd;
    int host_end; /* of a pseudo-terminal of our own; held open, so that a host may come and go; else -1 */
    unsigned long baud;
    claim claim;            /* of a port */
    struct termios *before; /* a port's settings before it was opened; else NULL */
} line;

typedef enum {
    LINE_OK,
    LINE_QUIET,    /* nothing happened in that time */
    LINE_GONE,     /* hung up */
    LINE_SIGNALLED /* a signal has come */
} line_event;

/* Makes a pseudo-terminal. On failure errno says why. */
bool line_make(line *l);

/* Opens a port for this program alone, raw, with 8 bits, no parity, one stop bit. What waits there already is kept. On
   failure errno says why; EBUSY: another program uses it. */
bool line_open(line *l, const char *path, unsigned long baud);

/* Opens the port again, as it was opened first. */
bool line_reopen(line *l);

/* Closes the line; a port gets back the settings that it had. */
void line_close(line *l);

/* Waits for bytes, `milliseconds` at most, or for ever if that is negative; takes what is there, up to `room`. */
line_event line_read(line *l, uint8_t *bytes, size_t room, int milliseconds, size_t *count);

/* Writes some of the bytes, as many as the line takes; waits likewise until it takes one. */
line_event line_write(line *l, const uint8_t *bytes, size_t length, int milliseconds, size_t *count);

/* For two byte times, at least 5 ms: in milliseconds, after which nothing more comes of what came last, and what was
   sent last has left the adapter too. */
int line_settles(const line *l);

/* Lets hosts open a pseudo-terminal of our own, whatever a host that was killed has left there. */
void line_admit(line *l);

/* How many of the bytes that were written are known to wait on this side still. */
size_t line_unsent(const line *l);

/* Drops these. */
void line_discard(line *l);

/* Waits until all that was written has left; with a pseudo-terminal of our own until a host has read it, if that is
   soon: what it has not read is lost when the line is closed. */
void line_drain(line *l);

#endif
