/* The pace of a line: how long bytes need on the wire, by its speed. Times are in milliseconds. */
#ifndef PACE_H
#define PACE_H

#include <stddef.h>

typedef struct {
    unsigned long baud;
    long long begun; /* when what is being sent began */
    size_t given;    /* how many bytes of it were given to the line */
    long long left;  /* when the last of these has left */
} pace;

/* Something new is sent. */
void pace_begin(pace *p);

/* `count` bytes of it were given to the line. */
void pace_add(pace *p, size_t count);

/* How long until they have left. */
long long pace_rest(const pace *p);

/* How long it may take until they have arrived: adapters leave gaps between their packets, and a line that took them
   more slowly than its speed says hands them on as slowly. */
long long pace_arrival(const pace *p);

#endif
