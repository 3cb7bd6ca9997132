/* A load: the host's side of the boot ROM's line. */
#ifndef LOADING_H
#define LOADING_H

#include "heard.h"
#include "line.h"
#include "log.h"
#include "pace.h"

typedef struct {
    uint32_t kind;
    content frame; /* header, code, and the byte that starts it */
    line line;
    event_log log;
    unsigned long seconds; /* how long nothing may happen, beyond what bytes need on the wire */
    bool bar;              /* a progress bar is shown */
    pace pace;
    heard heard;
    size_t sent;    /* bytes of the frame that were given to the line */
    size_t headers; /* how often the header was */
} loading;

/* Loads the code of the frame over the open line. Gives the exit code after it has said what went wrong, if anything
   did. */
int load_frame(loading *l);

/* How long nothing may happen, in milliseconds. */
long long loading_patience(const loading *l);

#endif
