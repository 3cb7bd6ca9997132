/* A file that a program keeps up to date. It is locked, so that only one program does. */
#ifndef KEPT_H
#define KEPT_H

#include "files.h"

typedef struct {
    char *path;
    int fd;
} kept_file;

/* Opens and reads a file that is there. On failure errno says why; EBUSY: another program keeps it. */
bool kept_open(kept_file *k, const char *path, size_t most, content *c);

/* Replaces its content, on the disk too, before it returns. On failure the old one stays. */
bool kept_replace(kept_file *k, const uint8_t *bytes, size_t length);

void kept_close(kept_file *k);

#endif
