/* Times of a subject, by the library and by plain C in the same run. */
#ifndef MEASURE_H
#define MEASURE_H

#include <stddef.h>

/* Who works: the library, plain C, and plain C with other means, which is printed beside it. */
typedef enum { LIBRARY, PLAIN, TABLE, ZLIB, LOOP, CALLS, SESSION_CALL, WORKERS } worker;

/* What the bits of `beside` mean. */
enum {
    WITH_TABLE = 1 << TABLE,
    WITH_ZLIB = 1 << ZLIB,
    WITH_LOOP = 1 << LOOP,
    WITH_CALLS = 1 << CALLS,
    WITH_SESSION_CALL = 1 << SESSION_CALL
};

typedef struct subject {
    const char *name;
    size_t full;     /* its largest size, in bytes or versions */
    unsigned beside; /* the further workers */
    size_t piece;    /* sessions: how many bytes a call is shown and has room for; 0: all */
    unsigned opcode; /* uartboot and its host: the command; 0: the ROM's receiver */
    void (*prepare)(const struct subject *s, size_t size);
    void (*library)(const struct subject *s);
    void (*plain)(const struct subject *s);
    int (*same)(void); /* whether library and plain C last gave the same */
} subject;

/* Whether library and plain C, with each of its means, give the same at a size. */
int agree(const subject *s, size_t size);

/* Median times in nanoseconds at a size, of the library and the workers whose bits are set. */
void measure(const subject *s, size_t size, unsigned workers, double median[WORKERS]);

#endif
