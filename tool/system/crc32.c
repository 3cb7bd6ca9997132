#include "crc32.h"

static uint32_t step(uint32_t crc, uint8_t byte)
{
    crc ^= byte;
    for (int bit = 0; bit < 8; bit++)
        crc = crc >> 1 ^ (crc & 1 ? 0xEDB88320u : 0);
    return crc;
}

uint32_t crc32_of(content c)
{
    uint32_t crc = UINT32_MAX;
    for (size_t i = 0; i < c.length; i++)
        crc = step(crc, c.bytes[i]);
    return ~crc;
}
