/* Text on its way to standard output, where it may be read late. */
#ifndef OUTLET_H
#define OUTLET_H

#include "text.h"

#include <stdbool.h>

typedef struct {
    bool later; /* what nobody reads yet is written later; else the program waits until somebody reads it */
    text all;   /* where it is written later, what has come so far */
    size_t written;
} outlet;

/* On failure errno says why. It gives up where nobody reads and the end is asked for. */
bool outlet_write(outlet *o, const char *bytes, size_t count);

/* Writes what is left. */
bool outlet_end(outlet *o);

#endif
