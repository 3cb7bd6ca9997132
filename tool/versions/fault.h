/* Why a version is malformed, in words. */
#ifndef FAULT_H
#define FAULT_H

#include "text.h"

#include <stdbool.h>

/* A version as it came, well-formed or not. */
typedef struct {
    const uint8_t *bytes;
    size_t kept, length; /* how many bytes are there, and how many it has in all */
    bool in_field;       /* it is a field, without the 00 at its end */
} raw_version;

/* The first rule that the text of a malformed version breaks, from left to right: "number 2 is above 65535". */
void add_fault(text *t, const raw_version *v);

#endif
