/* CRC-16 and CRC-32, bit by bit, with a table of 256 entries, and zlib's. */
#include "plain.h"

#include <zlib.h>

static uint16_t table16[256];
static uint32_t table32[256];

uint16_t plain_crc16_bitwise(const uint8_t *bytes, size_t count)
{
    uint16_t crc = 0xFFFF;
    for (size_t i = 0; i < count; i++) {
        crc ^= (uint16_t)(bytes[i] << 8);
        for (int bit = 0; bit < 8; bit++)
            crc = crc & 0x8000 ? (uint16_t)(crc << 1 ^ 0x1021) : (uint16_t)(crc << 1);
    }
    return crc;
}

uint32_t plain_crc32_bitwise(const uint8_t *bytes, size_t count)
{
    uint32_t crc = 0xFFFFFFFF;
    for (size_t i = 0; i < count; i++) {
        crc ^= bytes[i];
        for (int bit = 0; bit < 8; bit++)
            crc = crc & 1 ? crc >> 1 ^ 0xEDB88320 : crc >> 1;
    }
    return ~crc;
}

void plain_fill_tables(void)
{
    for (uint32_t byte = 0; byte < 256; byte++) {
        uint16_t high = (uint16_t)(byte << 8);
        uint32_t low = byte;
        for (int bit = 0; bit < 8; bit++) {
            high = high & 0x8000 ? (uint16_t)(high << 1 ^ 0x1021) : (uint16_t)(high << 1);
            low = low & 1 ? low >> 1 ^ 0xEDB88320 : low >> 1;
        }
        table16[byte] = high;
        table32[byte] = low;
    }
}

uint16_t plain_crc16_table(const uint8_t *bytes, size_t count)
{
    uint16_t crc = 0xFFFF;
    for (size_t i = 0; i < count; i++)
        crc = (uint16_t)(crc << 8 ^ table16[crc >> 8 ^ bytes[i]]);
    return crc;
}

uint32_t plain_crc32_table(const uint8_t *bytes, size_t count)
{
    uint32_t crc = 0xFFFFFFFF;
    for (size_t i = 0; i < count; i++)
        crc = crc >> 8 ^ table32[(crc ^ bytes[i]) & 0xFF];
    return ~crc;
}

uint32_t plain_crc32_zlib(const uint8_t *bytes, size_t count)
{
    return (uint32_t)crc32(0, bytes, (uInt)count);
}
