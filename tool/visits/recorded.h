/* A recorded visit: its file, its entries, and the joined bytes of each end. */
#ifndef RECORDED_H
#define RECORDED_H

#include "files.h"
#include "undalisho.h"

typedef struct {
    const char *path, *name; /* as it was given, and as people read it */
    bool standard;           /* it came from standard input */
    content file;
} recorded;

/* Reads a file, or standard input where the path is "-". Gives DONE, or the exit code after it has said what is
   wrong. */
int read_recorded(recorded *r, const char *path);

/* An entry, by places in the file. Where it is cut short, its end is past the file's. */
typedef struct {
    size_t begin, first, end; /* `first` is that of its own bytes */
    uint8_t kind;
} recorded_entry;

recorded_entry entry_at(content file, size_t begin);

/* How many entries a good recording has. */
size_t count_entries(content file);

/* The joined bytes of one end, in a good recording. */
typedef struct {
    content file;
    uint8_t kind;
    size_t next;    /* where the next entry begins */
    size_t at, end; /* what is left of this one */
} stream;

stream stream_of(content file, uint8_t kind);

/* How many bytes are left in one piece, from s->at on; 0 at the end. */
size_t stream_ready(stream *s);

/* Passes over at most `count` bytes, and copies them unless `bytes` is NULL. Gives how many these are. */
size_t stream_take(stream *s, uint8_t *bytes, size_t count);

#endif
