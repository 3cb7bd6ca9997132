/* Memories to lend to a session. */
#ifndef MEMORIES_H
#define MEMORIES_H

#include "files.h"

/* Bytes of flash, where none is stated. */
enum { USUAL_FLASH = 1048576 };

/* `length` bytes that are all the same. */
content filled(size_t length, int byte);

/* `length` zeros; where that is more than `most`, `most` + 1, which the library refuses as well. */
content zeros(unsigned long length, size_t most);

content copy_of(content c);

#endif
