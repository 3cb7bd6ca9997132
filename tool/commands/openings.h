/* What several commands open or write, and say where they can't. */
#ifndef OPENINGS_H
#define OPENINGS_H

#include "files.h"
#include "line.h"
#include "log.h"

/* A file that a command is given. */
typedef struct {
    const char *name; /* what names it on the command line */
    const char *path; /* NULL: it was left out */
    bool written;
} file_use;

/* Whether none that is written is another of them too, under whatever path; says so if one is. */
bool are_separate(const file_use *uses, size_t count);

/* Writes a file that was asked for with an option. This and those below give DONE, or the exit code. */
int write_output(const char *path, const uint8_t *bytes, size_t length);

/* From now on signals are caught: see signals.h. */
int catch_signals(bool with_button);

/* Opens the log; what is said from now on goes there too. */
int open_log(event_log *l);

int open_port(line *l, const char *path, unsigned long baud);

#endif
