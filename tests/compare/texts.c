#include "texts.h"

#include "fill.h"

#include <stdio.h>
#include <string.h>

static size_t put_decimal(trial *t, char *at)
{
    static const uint32_t edges[] = {0, 1, 9, 10, 99, 100, 65535, 65536, 65534, 99999, 100000, 4294967295u};
    uint32_t value = once_in(t->c, 3) ? PICK_OF(t->c, edges) : pick(t->c, once_in(t->c, 3) ? 65536 : 20);
    return (size_t)sprintf(at, once_in(t->c, 30) ? "0%u" : "%u", value);
}

void make_version(trial *t, uint8_t *field, size_t room)
{
    static const char odd[] = {'.', '0', '9', 'a', ' ', '-', '/', ':', 0, 1, (char)0xFF};
    enum { MOST_NUMBERS = TEXT_NUMBERS + 2, LONGEST_NUMBER = 12 /* with its dot */ };
    char text[MOST_NUMBERS * LONGEST_NUMBER] = {0};
    size_t length = 0;
    uint32_t numbers = once_in(t->c, 16) ? pick(t->c, MOST_NUMBERS + 1) : 1 + pick(t->c, TEXT_NUMBERS);
    for (uint32_t k = 0; k < numbers; k++) {
        length += put_decimal(t, text + length);
        if (k + 1 < numbers)
            text[length++] = '.';
    }
    memset(field, 0, room);
    memcpy(field, text, length < room ? length : room);
    uint32_t place = pick(t->c, VERSION_FIELD);
    if (once_in(t->c, 8))
        field[place] = (uint8_t)PICK_OF(t->c, odd);
    else if (once_in(t->c, 16))
        field[place] = (uint8_t)pick(t->c, 256);
}

void make_image(trial *t, uint8_t *bytes, uint32_t code)
{
    static const uint8_t ids[] = {0, 1, 7, 9, 10, 127, 128, 254, 255};
    fill(t->c, bytes, IMAGE_HEADER + code);
    bytes[0] = 0x70;
    bytes[1] = 0x51;
    bytes[2] = 0xAA;
    bytes[3] = once_in(t->c, 2) ? PICK_OF(t->c, ids) : (uint8_t)pick(t->c, 256);
    put_little(bytes + 4, 4, code);
    make_version(t, bytes + 12, VERSION_FIELD);
    bytes[32] = 0;
    put_little(bytes + 8, 4, model_crc32(bytes + IMAGE_HEADER, code));
}

void damage_image(trial *t, uint8_t *bytes, size_t room)
{
    uint64_t sizes[] = {0, room - IMAGE_HEADER, MOST_CODE, 0xFFFFFFFF, room, 0x80000000};
    uint32_t what = pick(t->c, 8), where = pick(t->c, 31);
    switch (what) {
    case 0: bytes[where % 2] = (uint8_t)pick(t->c, 256); break;
    case 1: bytes[2] = (uint8_t)pick(t->c, 256); break;
    case 2: bytes[32] = (uint8_t)pick(t->c, 256); break;
    case 3: bytes[8 + where % 4] ^= (uint8_t)(1u << pick(t->c, 8)); break;
    case 4: bytes[IMAGE_HEADER] ^= (uint8_t)pick(t->c, 256); break;
    case 5: bytes[33 + where] = (uint8_t)pick(t->c, 256); break;
    default: {
        /* Another size, mostly with the CRC that it needs. */
        uint64_t size = near_edges(t->c, sizes, sizeof sizes / sizeof *sizes) & 0xFFFFFFFF;
        put_little(bytes + 4, 4, size);
        if (size <= room - IMAGE_HEADER && !once_in(t->c, 4))
            put_little(bytes + 8, 4, model_crc32(bytes + IMAGE_HEADER, size));
    }
    }
}
