/* The log: one line for each event, for people or for machines. */
#ifndef LOG_H
#define LOG_H

#include "outlet.h"
#include "say.h"
#include "visit.h"
#include "words.h"

#include <stdbool.h>

typedef enum { FROM_NOBODY, FROM_HOST, FROM_CHIP } sender;

typedef struct {
    sender from;
    const char *name; /* one word, for machines */
    const uint8_t *bytes;
    size_t count;
    const meaning *refused; /* why it was refused, else NULL */
    const char *words;
    const char *path;   /* of a file or a line that the event is about, else NULL */
    const text *more;   /* what people read after the words, else NULL */
    const text *fields; /* the same as JSON's names and values, each with a comma before it, else NULL */
    const saying *said; /* an ending that the program says, else NULL */
    bool loud;          /* for the terminal, even with --quiet */
} event;

typedef struct {
    const char *path; /* NULL: no file */
    int fd;
    bool quiet, json;
    bool failed; /* a line could not be written; said once */
    bool lost;   /* a recording could not be written, or is gone */
    visit visit; /* that it tells of */
    bool begun;  /* the first event was told */
    outlet outlet;
} event_log;

/* Opens the log's file to add to it, if it has one. On failure errno says why. */
bool log_open(event_log *l);
void log_event(event_log *l, const event *e);

/* An event without bytes; `path` may be NULL. */
void log_note(event_log *l, const char *name, const char *path, const char *format, ...) LIKE_PRINTF(4, 5);

/* Says that a file of the visit cannot be written any more, for the reason in errno. */
void log_loss(event_log *l, const char *name, const char *what, const char *path);

/* Says that it was written, but its path no longer leads to it. */
void log_gone(event_log *l, const char *name, const char *what, const char *path);

/* Writes what is left, and closes the log. */
void log_close(event_log *l);

/* The exit code of a visit that has ended with this one: FAILED where the visit went well, but its log or recording
   could not be written. */
int log_exit(const event_log *l, int code);

/* The visit begins: endings that the program says from now on become events too, each the last of the visit. */
void log_visit(event_log *l);

/* The first event of a visit, and the last where all is well, with what makes it traceable. */
void log_begin(event_log *l, const char *name, const char *path, const char *words);
void log_end(event_log *l, const char *name, const char *result, const char *words);

#endif
