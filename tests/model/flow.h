/* A flow written as one text that a call can leave at any take or send and enter there again. Each place has the number
   of its phase. Used inside `switch (s[WORD_PHASE]) { default: .. }` over a record `s` and a line `l`. */
#ifndef FLOW_H
#define FLOW_H

#include "model.h"

#define STAND_AT(phase) \
    s[WORD_PHASE] = (phase); \
    __attribute__((fallthrough)); \
    case phase:

/* The next byte, which stays untaken. */
#define SEE(phase, into) \
    do { \
        STAND_AT(phase) \
        if (l->taken == l->shown) \
            return WANTS_BYTE; \
        (into) = l->input[l->taken]; \
    } while (0)

#define TAKE(phase, into) \
    do { \
        SEE(phase, into); \
        l->taken++; \
    } while (0)

#define SEND(phase, byte) \
    do { \
        STAND_AT(phase) \
        if (l->sent == l->room) \
            return WANTS_ROOM; \
        l->reply[l->sent++] = (uint8_t)(byte); \
    } while (0)

/* A flow in parts: each gives a call's standing, or 0 once it has set the phase that comes next. */
static inline uint32_t go_on(uint32_t *s, uint32_t phase)
{
    s[WORD_PHASE] = phase;
    return 0;
}

#endif
