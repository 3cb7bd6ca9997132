/* Selecting between two valid images with codes of `size` bytes each. */
#include "plain.h"
#include "subjects.h"

#include <string.h>

enum { FLASH = 66 * 4096, PRODUCT = 12, HEADER = 64, LARGEST = 131072 };

static uint8_t *flash;
static und_selected ours, theirs;

static void put32(uint8_t *to, uint32_t number)
{
    for (int i = 0; i < 4; i++)
        to[i] = (uint8_t)(number >> 8 * i);
}

static void put_image(size_t offset, uint8_t id, size_t size)
{
    uint8_t *header = flash + offset;
    memset(header, 0, HEADER);
    header[0] = 0x70;
    header[1] = 0x51;
    header[2] = 0xAA;
    header[3] = id;
    some_bytes(header + HEADER, size);
    put32(header + 4, (uint32_t)size);
    put32(header + 8, plain_crc32_table(header + HEADER, size));
}

void slot_prepare(const subject *s, size_t size)
{
    (void)s;
    if (flash == NULL)
        flash = room_at(0, FLASH);
    memset(flash, 0xFF, FLASH);
    flash[0] = 0x70;
    flash[1] = 0x52;
    put32(flash + 4, PRODUCT);
    put32(flash + 8, PRODUCT + HEADER + LARGEST);
    put_image(PRODUCT, 9, size);
    put_image(PRODUCT + HEADER + LARGEST, 10, size);
}

void slot_library(const subject *s)
{
    (void)s;
    ours = und_select(flash, FLASH, 0);
}

void slot_plain(const subject *s)
{
    (void)s;
    theirs = plain_select(flash, FLASH, 0);
}

int slot_same(void)
{
    return ours.number == 0 && ours.slot == 2 && theirs.number == 0 && theirs.slot == 2;
}
