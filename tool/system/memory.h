/* Memory. */
#ifndef MEMORY_H
#define MEMORY_H

#include <stddef.h>

/* `bytes` bytes, all zero; never NULL. The program ends where there are none. */
void *memory_of(size_t bytes);

#endif
