/* A progress bar on standard error. */
#ifndef PROGRESS_H
#define PROGRESS_H

#include <stdbool.h>
#include <stddef.h>

void show_progress(size_t done, size_t all);

/* Ends the bar's line, if one was shown. */
void end_progress(bool shown);

#endif
