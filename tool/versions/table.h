/* A ranked tray on standard output: a table with the highest version first, and the malformed ones below it. */
#ifndef TABLE_H
#define TABLE_H

#include "ranking.h"

/* `next` is what to do about malformed versions, NULL where there are none. */
void print_tray(const tray *t, const ranking *r, const char *next);

/* The same as a JSON object. */
void print_tray_json(const tray *t, const ranking *r, const char *next);

#endif
