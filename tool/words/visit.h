/* What makes a visit traceable: the first and the last line of its log. */
#ifndef VISIT_H
#define VISIT_H

#include "files.h"
#include "text.h"

typedef struct {
    const char *port, *kind; /* port NULL: not known yet */
    unsigned long baud;
    const char *file;  /* that is loaded, or played as flash; NULL: none */
    content content;   /* of the file, as it is at the beginning; of code the bytes that are loaded */
    const char *label; /* the user's own words; NULL: none */
    long long begun;   /* when the visit began */
    size_t moved;      /* bytes that went over the line */
    long long moving;  /* when the first of them did */
} visit;

/* Begins the visit's time. */
void visit_begin(visit *v);

/* `count` bytes went over the line. */
void visit_move(visit *v, size_t count);

/* Where, what, when and by which version: in words, and as JSON's names and values, each with a comma before it. */
void visit_add_begin(const visit *v, text *words, text *fields);

/* How it ended, after how many seconds, and how many bytes went over the line in a second. */
void visit_add_end(const visit *v, const char *result, text *words, text *fields);

#endif
