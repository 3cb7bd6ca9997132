/* A tray of versions, as they came: fields one after the other, or text with one on a line. */
#ifndef TRAY_H
#define TRAY_H

#include "fault.h"
#include "files.h"
#include "line_reader.h"

typedef struct {
    const char *path; /* "-" is standard input */
    const char *name; /* the same, as it is said */
    content fields;   /* no more than is enough to see that there are too many */
    size_t count;     /* how many whole fields these are */
    text_line *lines; /* of text, the line of each field; else NULL */
} tray;

/* Reads a tray. Standard input is always text. Gives DONE, or the exit code after it has said what is wrong. */
int read_tray(tray *t, const char *path, bool is_text);

/* The version at an index, from 0. */
raw_version version_at(const tray *t, size_t index);

#endif
