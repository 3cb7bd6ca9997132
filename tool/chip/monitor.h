/* The monitor: it plays a chip on a line. */
#ifndef MONITOR_H
#define MONITOR_H

#include "kept.h"
#include "line.h"
#include "log.h"
#include "recorder.h"
#include "session.h"

typedef struct {
    uint32_t kind;      /* the session that it begins with */
    bool then_uartboot; /* uartboot follows when a receiver's code runs */
    session session;
    line line;
    event_log log;
    kept_file flash_file; /* path NULL: the flash lives in memory alone */
    content flash_kept;   /* what the file has */
    recorder recorder;
} monitor;

/* Whether the library takes memories of these lengths: 0, or the number of its refusal. */
uint32_t monitor_refusal(monitor *m);

/* Plays until code runs or the end is asked for. Gives the exit code. */
int monitor_play(monitor *m);

/* Whether code runs. */
bool monitor_runs(const monitor *m);

#endif
