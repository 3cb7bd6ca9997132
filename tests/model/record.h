/* What both sessions say of a record: which words a phase uses, its place, the address at which code runs. */
#ifndef RECORD_H
#define RECORD_H

#include "model.h"

#define USES(word) (1u << (word))

/* The words that a phase does not use are 0 in a record that is handed out. */
static inline void keep_only(uint32_t record[WORDS], uint32_t used)
{
    used |= USES(WORD_KIND) | USES(WORD_PHASE) | USES(WORD_REASON);
    for (int word = 0; word < WORDS; word++)
        if (!(used & USES(word)))
            record[word] = 0;
}

/* The place is that of the next byte, of all that its phase takes or sends; where it takes and sends none, it is 0. */
static inline bool has_place(const uint32_t record[WORDS], uint32_t bytes)
{
    return record[WORD_PLACE] == 0 || record[WORD_PLACE] < bytes;
}

static inline bool runs_in_ram(const uint32_t record[WORDS], size_t ram_length)
{
    int64_t byte = (int64_t)record[WORD_HELD] - RAM_BASE;
    return byte >= 0 && byte < (int64_t)ram_length;
}

#endif
