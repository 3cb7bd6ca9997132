/* Numbers of several bytes, low byte first. */
#ifndef LITTLE_H
#define LITTLE_H

#include <stdint.h>

static inline int64_t little(const uint8_t *bytes, int count)
{
    int64_t number = 0;
    while (count-- > 0)
        number = number * 256 + bytes[count];
    return number;
}

#endif
