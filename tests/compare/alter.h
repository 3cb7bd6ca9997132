/* The caller's own writes to lent memories between two calls. */
#ifndef ALTER_H
#define ALTER_H

#include "desk.h"

/* Nothing; any byte of any memory; or only payloads that were accepted, so that the stream still fits the session. */
typedef enum { ALTERS_NOTHING, ALTERS_BYTES, ALTERS_PAYLOADS } alters;

alters draw_alters(trial *t, uint32_t kind);
/* Sometimes writes. */
void alter(trial *t, desk *d, alters what);

#endif
