#include "memories.h"

#include "memory.h"

#include <string.h>

content filled(size_t length, int byte)
{
    content c = {memory_of(length), length};
    memset(c.bytes, byte, length);
    return c;
}

content zeros(unsigned long length, size_t most)
{
    return filled(length > most ? most + 1 : length, 0);
}

content copy_of(content c)
{
    content copy = {memory_of(c.length), c.length};
    memcpy(copy.bytes, c.bytes, c.length);
    return copy;
}
