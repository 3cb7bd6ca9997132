/* What sessions start with. */
#ifndef SESSIONS_H
#define SESSIONS_H

#include "desk.h"

/* Memories with lengths that are accepted, in the first contents. */
model_memories first_memories(trial *t, uint32_t kind);
/* The same with lengths that are mostly refused, one or several at a time. */
model_memories refused_memories(trial *t, uint32_t kind);
void fill_memories(trial *t, const model_memories *m);
/* A fresh record of the library's own. */
void fresh_record(trial *t, uint32_t kind, uint32_t record[WORDS]);

#endif
