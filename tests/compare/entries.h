/* How a visit becomes a recording, and damage to both. */
#ifndef ENTRIES_H
#define ENTRIES_H

#include "replay.h"

/* All bytes that went each way. */
typedef struct {
    stream host, device;
} spoken;

/* Damage to what was recorded. Says whether there is any. */
bool spoil_spoken(trial *t, spoken *s);
/* A whole recording, with entries of any lengths in any order. */
void write_recording(trial *t, stream *file, const spoken *s);
/* Damage to the file itself. Says whether there is any. */
bool spoil_file(trial *t, stream *file);
/* A file of a few bytes that begins like a recording, or nearly so. */
void write_start(trial *t, stream *file);

#endif
