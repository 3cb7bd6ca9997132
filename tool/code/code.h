/* A code file, in any form that is known. */
#ifndef CODE_H
#define CODE_H

#include "files.h"
#include "text.h"

/* Addresses for which a file has no bytes, from the first to the last. */
typedef struct {
    uint32_t first, last;
} gap;

typedef struct {
    content bytes;
    gap *gaps;
    size_t gap_count;
} code_file;

/* Reads a code file: bytes as they are, or Intel HEX text. Files that are known to be no code are refused; `raw` takes
   any file as it is. Gives DONE, or the exit code after it has said what is wrong. */
int read_code(const char *path, bool raw, code_file *c);

/* "gap of 256 bytes from 0x07FC0100 to 0x07FC01FF, filled with FF" */
void add_gap(text *t, const gap *g);

#endif
