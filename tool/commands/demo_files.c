#include "demo_files.h"

#include "memory.h"
#include "undalisho.h"
#include "view.h"

#include <string.h>

/* As in the example of the vendor's note on two images. */
enum { FLASH = 0x20000, FIRST = 0x8000, SECOND = 0x13000 };

/* The sectors that the image in slot 2 has, and the new one after it. */
enum { SLOT = 2 * UND_FLASH_SECTOR };

/* The image has PACKED bytes, which come after the stand-in. */
enum { STAND_IN = 0x400, PACKED = 0x1800 };

static void put_code(uint8_t *at, size_t length, uint32_t seed)
{
    for (size_t i = 0; i < length; i++) {
        seed = seed * 1664525 + 1013904223;
        at[i] = (uint8_t)(seed >> 24);
    }
}

static void put_image(uint8_t *at, size_t length, uint8_t id, const char *version)
{
    uint8_t field[UND_VERSION_FIELD] = {0};
    und_image_header header;
    size_t code = length - sizeof header.bytes;
    memcpy(field, version, strlen(version));
    put_code(at + sizeof header.bytes, code, id);
    header = und_make_image_header(at + sizeof header.bytes, code, id, field, sizeof field, 0);
    memcpy(at, header.bytes, sizeof header.bytes);
}

content demo_flash(void)
{
    content flash = {memory_of(FLASH), FLASH};
    und_product_header header = und_make_product_header(FIRST, SECOND);
    memset(flash.bytes, UND_FLASH_BLANK, FLASH);
    put_code(flash.bytes, 2 * UND_FLASH_SECTOR, 0);
    put_image(flash.bytes + FIRST, 9000, 9, "1.9");
    put_image(flash.bytes + SECOND, 7000, 3, "1.2");
    memcpy(flash.bytes + USUAL_HEADER, header.bytes, sizeof header.bytes);
    return flash;
}

content demo_package(void)
{
    content package = {memory_of(STAND_IN + PACKED), STAND_IN + PACKED};
    put_code(package.bytes, STAND_IN, 1);
    put_image(package.bytes + STAND_IN, PACKED, 10, "1.10");
    return package;
}

/* A number, low byte first. Gives the place after it. */
static uint8_t *put_number(uint8_t *at, size_t bytes, uint32_t number)
{
    for (; bytes > 0; bytes--, number >>= 8)
        *at++ = (uint8_t)number;
    return at;
}

content demo_erase(void)
{
    content payload = {memory_of(8), 8};
    uint8_t *at = put_number(payload.bytes, 4, SECOND);
    put_number(at, 4, SLOT);
    return payload;
}

content demo_copy(void)
{
    content payload = {memory_of(10), 10};
    uint8_t *at = put_number(payload.bytes, 4, UND_RAM_FIRST + STAND_IN);
    at = put_number(at, 2, PACKED);
    put_number(at, 4, SECOND);
    return payload;
}
