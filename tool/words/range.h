/* A command's range that is not wholly in its memory: which memory, which end, by how many bytes, and what to do. */
#ifndef RANGE_H
#define RANGE_H

#include "text.h"

#include <stdbool.h>
#include <stddef.h>
#include <stdint.h>

/* A refused command, and the lengths of the memories that it was refused for. */
typedef struct {
    uint32_t reason, opcode;
    const uint8_t *payload;
    size_t payload_length, ram_length, flash_length;
} refused_command;

/* Whether the reason is against a range. */
bool is_of_range(uint32_t reason);

/* Of such a reason: `what` and `next` as a meaning has them, and `fields` as JSON's names and values, each with a comma
   before it. */
void add_range(const refused_command *c, text *what, text *next, text *fields);

#endif
