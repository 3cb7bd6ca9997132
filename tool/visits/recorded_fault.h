/* What is wrong with a recording that the library has refused. */
#ifndef RECORDED_FAULT_H
#define RECORDED_FAULT_H

#include "files.h"
#include "text.h"

typedef struct {
    size_t offset;  /* of the byte at which it is wrong; where that is missing, the file's length */
    size_t entry;   /* in which it is, from 1; 0: before the first */
    size_t begins;  /* where that entry begins */
    size_t missing; /* how many bytes an entry lacks, as far as that is known */
} recorded_fault;

/* `words` say what was found, and where. */
recorded_fault find_fault(content file, uint32_t number, text *words);

#endif
