/* The first difference of a recorded visit: the bytes around it, where it is, and what it means. */
#ifndef DIFFERENCE_H
#define DIFFERENCE_H

#include "text.h"
#include "walk.h"

enum { SHOWN_BEFORE = 8, SHOWN_AFTER = 8 };

/* Bytes around a place. */
typedef struct {
    uint8_t bytes[SHOWN_BEFORE + SHOWN_AFTER];
    size_t count;
    bool more; /* others follow */
} around;

typedef struct {
    size_t place, offset; /* in the device's bytes, and in the file */
    size_t before;        /* how many of the bytes shown are before it */
    around expected, recorded;
    size_t command;  /* its number, from 1; 0: before the first */
    uint32_t opcode; /* of that command */
    bool has_opcode;
    text where, due, next; /* the part of the visit, what is expected there, and what to do */
    const char *found;     /* what the recorded byte means, or NULL */
} difference;

/* `w` stands at the visit's beginning. It goes on past the place. */
void find_difference(difference *d, walk *w, size_t place);

void difference_end(difference *d);

#endif
