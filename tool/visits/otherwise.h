/* A recording played with memories of one's own choice. The verdict is the library's. */
#ifndef OTHERWISE_H
#define OTHERWISE_H

#include "found.h"

/* The same record, and copies of the memories. */
session copies_of(const session *memories);

/* Gives a memory another length. What is added to it is all one byte. */
void resize(content *memory, size_t length, int byte);

/* Plays a recording with copies, which are freed. */
und_replayed play_with(session copies, content file);

/* Where a recording differs, had the visit found these memories; SIZE_MAX: nowhere. They are freed. With memories that
   may not be it is 0. */
size_t place_with(session copies, const found_reply *f);

/* Whether what is recorded at the place of a difference would be expected then. */
bool explains(session copies, const found_reply *f);

#endif
