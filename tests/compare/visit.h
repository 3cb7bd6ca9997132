/* A stream fed to a session, cut in several ways. */
#ifndef VISIT_H
#define VISIT_H

#include "alter.h"

typedef struct {
    setting start;
    const uint8_t *stream;
    size_t length;
    alters alters; /* memories are written between calls, so that cuts may end differently */
} visit;

void visit_run(trial *t, const visit *v);

/* A call with one thing wrong, which is shown some of the bytes that are left. It is refused, and all is as before. */
void refused_call(trial *t, desk *d, const uint8_t *input, size_t left);

#endif
