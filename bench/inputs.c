/* Inputs and room for the subjects. */
#include "subjects.h"

#include <stdio.h>
#include <stdlib.h>

enum { PAGE = 4096 };

uint32_t some_number(void)
{
    static uint64_t state = 1;
    state = state * 6364136223846793005u + 1442695040888963407u;
    return (uint32_t)(state >> 33);
}

void some_bytes(uint8_t *bytes, size_t count)
{
    for (size_t i = 0; i < count; i++)
        bytes[i] = (uint8_t)some_number();
}

uint8_t *room_at(size_t place, size_t count)
{
    void *room;
    if (posix_memalign(&room, PAGE, place + count) != 0) {
        fputs("no memory\n", stderr);
        exit(1);
    }
    return (uint8_t *)room + place;
}
