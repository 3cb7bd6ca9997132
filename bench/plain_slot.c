/* The slot selector in plain C. */
#include "plain.h"

static uint32_t number32(const uint8_t *b)
{
    return b[0] | (uint32_t)b[1] << 8 | (uint32_t)b[2] << 16 | (uint32_t)b[3] << 24;
}

/* The id of the valid image at an offset, or -1. */
static int valid_id(const uint8_t *flash, size_t flash_len, size_t offset)
{
    if (offset > flash_len || flash_len - offset < 64)
        return -1;
    const uint8_t *header = flash + offset;
    size_t size = number32(header + 4);
    if (header[0] != 0x70 || header[1] != 0x51 || header[2] != 0xAA || header[32] != 0)
        return -1;
    if (size == 0 || size > 131072 || size > flash_len - offset - 64)
        return -1;
    return plain.crc32(header + 64, size) == number32(header + 8) ? header[3] : -1;
}

/* 0 follows 255; an image that is not valid, -1, is newer than none. */
static int is_newer(int id, int than)
{
    if (id == 0 && than == 255)
        return 1;
    if (id == 255 && than == 0)
        return 0;
    return id > than;
}

und_selected plain_select(const uint8_t *flash, size_t flash_len, uint32_t header_offset)
{
    und_selected s = {0, 0};
    if (flash_len == 0 || flash_len % 4096 != 0 || flash_len > 4194304)
        s.number = 3;
    else if (header_offset > flash_len || flash_len - header_offset < 12)
        s.number = 51;
    else if (flash[header_offset] != 0x70 || flash[header_offset + 1] != 0x52)
        s.number = 52;
    if (s.number != 0)
        return s;
    int first = valid_id(flash, flash_len, number32(flash + header_offset + 4));
    int second = valid_id(flash, flash_len, number32(flash + header_offset + 8));
    if (first < 0 && second < 0)
        s.number = 53;
    else
        s.slot = is_newer(second, first) ? 2 : 1;
    return s;
}
