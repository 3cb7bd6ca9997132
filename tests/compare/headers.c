/* Cases of headers that are made, and what the selector and an offer then say of them. */
#include "fill.h"
#include "lend.h"
#include "seen.h"
#include "texts.h"
#include "undalisho.h"

#include <string.h>

enum { LONGEST_CODE = MOST_CODE + 64, LONGEST_FIELD = VERSION_FIELD + 8, BEHIND = 32 };
enum {
    LONGEST_FILE = IMAGE_HEADER + MOST_CODE + BEHIND,
    LONGEST_FLASH = 2 * SECTOR + (IMAGE_HEADER + MOST_CODE + SECTOR) / SECTOR * SECTOR
};

static shelf code_shelf, version_shelf, file_shelves[2], flash_shelf;

static void build_shelves(void)
{
    if (code_shelf.first)
        return;
    shelf_build(&code_shelf, LONGEST_CODE);
    shelf_build(&version_shelf, LONGEST_FIELD);
    shelf_build(&file_shelves[0], LONGEST_FILE);
    shelf_build(&file_shelves[1], LONGEST_FILE);
    shelf_build(&flash_shelf, LONGEST_FLASH);
}

static size_t code_length(trial *t)
{
    static const uint64_t edges[] = {1, MOST_CODE, MOST_CODE + 1, 0, 255, 256, 65535};
    if (!once_in(t->c, 16))
        return pick(t->c, 300);
    size_t length = near_edges(t->c, edges, sizeof edges / sizeof *edges);
    return length > LONGEST_CODE ? 0 : length;
}

static uint32_t any_word(trial *t)
{
    static const uint32_t edges[] = {0, 1, 255, 256, 0x12345678, 0x7FFFFFFF, 0x80000000, 0xFFFFFFFF};
    return once_in(t->c, 2) ? PICK_OF(t->c, edges) : pick(t->c, 0xFFFFFFFF);
}

/* Two files with the header and its code, and bytes after them: the installed one wins, with that code. */
static void as_files(trial *t, const uint8_t header[IMAGE_HEADER], const uint8_t *code, size_t length)
{
    size_t file_length = IMAGE_HEADER + length + pick(t->c, BEHIND);
    uint8_t *files[2];
    for (int i = 0; i < 2; i++) {
        files[i] = shelf_lend(&file_shelves[i], file_length, true);
        memset(files[i], 0xEE, file_length);
        memcpy(files[i], header, IMAGE_HEADER);
        memcpy(files[i] + IMAGE_HEADER, code, length);
    }
    und_offered got = und_offer(files[0], file_length, files[1], file_length);
    same_number(t, "made file's number", got.number, 0);
    same_number(t, "made file that wins", got.file, 1);
    same_number(t, "place of its code", got.place, IMAGE_HEADER);
    same_number(t, "size of its code", got.size, length);
}

/* A flash with the header and its code as one of the images: its slot starts. */
static void as_slot(trial *t, const uint8_t header[IMAGE_HEADER], const uint8_t *code, size_t length)
{
    size_t flash_length = SECTOR + (IMAGE_HEADER + length + SECTOR) / SECTOR * SECTOR;
    size_t product_at = pick(t->c, SECTOR / 2), image_at = SECTOR / 2 + PRODUCT_HEADER + pick(t->c, SECTOR / 2);
    uint8_t *flash = shelf_lend(&flash_shelf, flash_length, true);
    uint32_t slot = 1 + pick(t->c, 2), other = (uint32_t)flash_length;
    und_product_header product =
        und_make_product_header(slot == 1 ? (uint32_t)image_at : other, slot == 2 ? (uint32_t)image_at : other);
    memset(flash, 0xFF, flash_length);
    memcpy(flash + product_at, product.bytes, sizeof product.bytes);
    memcpy(flash + image_at, header, IMAGE_HEADER);
    memcpy(flash + image_at + IMAGE_HEADER, code, length);
    und_product named = und_read_product(flash, flash_length, (uint32_t)product_at);
    same_number(t, "made product header's offset", slot == 1 ? named.first : named.second, image_at);
    same_number(t, "rule that a made image breaks", und_read_image(flash, flash_length, (uint32_t)image_at).rule, 0);
    und_selected got = und_select(flash, flash_length, (uint32_t)product_at);
    same_number(t, "made flash's number", got.number, 0);
    same_number(t, "made flash's slot", got.slot, slot);
}

void image_header_case(trial *t)
{
    static uint8_t kept[LONGEST_CODE];
    uint8_t text[LONGEST_FIELD];
    build_shelves();
    size_t length = code_length(t), version_length = once_in(t->c, 24) ? pick(t->c, sizeof text) : VERSION_FIELD;
    bool at_end = !once_in(t->c, 3);
    uint8_t *code = shelf_lend(&code_shelf, length, at_end),
            *version = shelf_lend(&version_shelf, version_length, at_end);
    uint8_t id = (uint8_t)pick(t->c, 256);
    uint32_t time = any_word(t);
    make_version(t, text, sizeof text);
    memcpy(version, text, version_length);
    fill(t->c, kept, length);
    memcpy(code, kept, length);
    und_image_header got =
        und_make_image_header(length ? code : NULL, length, id, version_length ? version : NULL, version_length, time);
    model_image_header want = model_make_image_header(kept, length, id, text, version_length, time);
    tell(t, "image header: code %zu, id %u, time %u: number %u\n", length, id, time, want.number);
    tell_bytes(t, "version", text, version_length);
    seen(SEEN_IMAGE_HEADER_NUMBER, want.number);
    same_number(t, "image header's number", got.number, want.number);
    same_bytes(t, "image header", got.bytes, want.bytes, IMAGE_HEADER);
    same_bytes(t, "lent code", code, kept, length);
    same_bytes(t, "lent version", version, text, version_length);
    if (!shelf_intact(&code_shelf) || !shelf_intact(&version_shelf))
        differ(t, "a byte beside code or version was written");
    if (want.number == 0 && !differs(t)) {
        as_files(t, got.bytes, code, length);
        as_slot(t, got.bytes, code, length);
    }
    t->calls++;
}

void product_header_case(trial *t)
{
    uint32_t first = any_word(t), second = any_word(t);
    und_product_header got = und_make_product_header(first, second);
    model_product_header want = model_make_product_header(first, second);
    tell(t, "product header: %u and %u\n", first, second);
    same_bytes(t, "product header", got.bytes, want.bytes, PRODUCT_HEADER);
    t->calls++;
}
