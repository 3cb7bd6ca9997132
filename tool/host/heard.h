/* What came from the chip, until it answers the header. */
#ifndef HEARD_H
#define HEARD_H

#include "session.h"
#include "text.h"

enum { HEARD_SHOWN = 8 };

/* In milliseconds: how soon a chip that was reset greets, or one greets again. */
enum { GREETS_WITHIN = 300 };

typedef struct {
    size_t count;
    uint8_t first[HEARD_SHOWN];
    uint8_t last[MOST_GREETING];     /* the newest is last; zeros where fewer came */
    uint8_t uartboot[MOST_GREETING]; /* uartboot's greeting, which begins with no zero */
    size_t uartboot_length;
    bool met_uartboot;
    int settles;       /* how many milliseconds after a greeting no more of it comes */
    long long settled; /* when that is so of the greeting that came last */
} heard;

void heard_begin(heard *h, int settles);
void hear(heard *h, uint8_t byte);

/* Counts anew; what came last is remembered. */
void heard_forget(heard *h);

/* Whether what came last is uartboot's greeting, or may be the boot ROM's, whose only byte begins uartboot's too. */
bool heard_uartboot(const heard *h);
bool heard_greeting(const heard *h);

/* The first bytes, in hexadecimal. */
void heard_add_first(text *t, const heard *h);

#endif
