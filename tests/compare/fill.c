#include "fill.h"

#include <string.h>

void fill(choices *c, uint8_t *bytes, size_t count)
{
    uint32_t how = pick(c, 4);
    uint64_t state = how < 2 ? 0 : pick(c, 1u << 20);
    if (count == 0)
        return;
    if (how < 2) {
        memset(bytes, how == 0 ? 0x00 : 0xFF, count);
        return;
    }
    for (size_t i = 0; i < count; i += 8) {
        uint64_t number = next_random(&state);
        memcpy(bytes + i, &number, count - i < 8 ? count - i : 8);
    }
}

void put_little(uint8_t *bytes, int count, uint64_t number)
{
    for (int i = 0; i < count; i++)
        bytes[i] = (uint8_t)(number >> (8 * i));
}

uint64_t near_edges(choices *c, const uint64_t *edges, size_t count)
{
    uint64_t edge = edges[pick(c, (uint32_t)count)];
    switch (pick(c, 4)) {
    case 0: return edge;
    case 1: return edge + 1;
    case 2: return edge - 1;
    default: return edge + pick(c, 64) - 32;
    }
}

size_t room_near(choices *c, size_t length)
{
    switch (pick(c, 4)) {
    case 0: return length;
    case 1: return length + pick(c, 16);
    case 2: return length == 0 ? 0 : length - 1;
    default: return pick(c, (uint32_t)length + 1);
    }
}
