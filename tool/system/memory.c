#include "memory.h"

#include "exits.h"

#include <stdio.h>
#include <stdlib.h>

void *memory_of(size_t bytes)
{
    void *memory = calloc(bytes ? bytes : 1, 1);
    if (!memory) {
        fprintf(stderr, "undalisho: there is no memory for %zu bytes\n", bytes);
        fprintf(stderr, "  next: close other programs, then try again\n");
        exit(FAILED);
    }
    return memory;
}
