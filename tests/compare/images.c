/* Cases of the selector and of offers, and what the headers say there. */
#include "fill.h"
#include "lend.h"
#include "readings.h"
#include "seen.h"
#include "texts.h"
#include "undalisho.h"

#include <string.h>

enum { MOST_FILE = IMAGE_HEADER + MOST_CODE + 256 };

static uint32_t code_length(trial *t, size_t room)
{
    uint32_t most = room > MOST_CODE ? MOST_CODE : (uint32_t)room;
    if (once_in(t->c, 8))
        return most;
    return 1 + pick(t->c, most < 300 || once_in(t->c, 12) ? most : 300);
}

/* Writes an image somewhere, often damaged, and gives its offset, often near an edge. */
static uint64_t place_image(trial *t, uint8_t *flash, size_t length)
{
    uint64_t edges[] = {
        0, SECTOR, length - IMAGE_HEADER, length, 0xFFFFFFFF, 0xFFFFFFFF - IMAGE_HEADER, length - IMAGE_HEADER - 1};
    uint64_t offset = once_in(t->c, 4) ? near_edges(t->c, edges, sizeof edges / sizeof *edges) & 0xFFFFFFFF
                                       : pick(t->c, (uint32_t)length - IMAGE_HEADER - 1);
    if (offset + IMAGE_HEADER + 1 > length)
        return offset;
    make_image(t, flash + offset, code_length(t, length - offset - IMAGE_HEADER));
    if (once_in(t->c, 4))
        damage_image(t, flash + offset, length - offset);
    return offset;
}

static uint32_t place_product_header(trial *t, uint8_t *flash, size_t length, const uint64_t offsets[2])
{
    uint64_t edges[] = {0, length - PRODUCT_HEADER, length, 0xFFFFFFFF, 0xFFFFFFFF - PRODUCT_HEADER, SECTOR};
    uint32_t header = once_in(t->c, 3) ? (uint32_t)near_edges(t->c, edges, sizeof edges / sizeof *edges)
                                       : pick(t->c, (uint32_t)length - PRODUCT_HEADER);
    if ((uint64_t)header + PRODUCT_HEADER > length)
        return header;
    flash[header] = 0x70;
    flash[header + 1] = 0x52;
    put_little(flash + header + 4, 4, offsets[0]);
    put_little(flash + header + 8, 4, offsets[1]);
    if (once_in(t->c, 16))
        flash[header + pick(t->c, 2)] = (uint8_t)pick(t->c, 256);
    return header;
}

static size_t selector_flash_length(trial *t)
{
    static const uint32_t bad[] = {0, 1, 4095, 4097, 4194304 + 4096, 4194303};
    if (once_in(t->c, 40))
        return PICK_OF(t->c, bad);
    if (once_in(t->c, 100))
        return MOST_FLASH;
    return SECTOR * (size_t)(1 + pick(t->c, once_in(t->c, 20) ? 80 : 3));
}

void select_case(trial *t)
{
    static shelf held;
    static uint8_t flash[MOST_FLASH + SECTOR];
    if (!held.first)
        shelf_build(&held, sizeof flash);
    size_t length = selector_flash_length(t);
    uint8_t *lent = shelf_lend(&held, length, !once_in(t->c, 3));
    fill(t->c, flash, length);
    uint32_t header = pick(t->c, SECTOR);
    uint64_t offsets[2] = {header, 0};
    if (length >= SECTOR) {
        offsets[0] = place_image(t, flash, length);
        offsets[1] = place_image(t, flash, length);
        if (once_in(t->c, 12))
            offsets[1] = offsets[0];
        header = place_product_header(t, flash, length, offsets);
        tell(t, "flash %zu, product header at %u, images at %llu and %llu\n", length, header,
             (unsigned long long)offsets[0], (unsigned long long)offsets[1]);
    }
    memcpy(lent, flash, length);
    und_selected got = und_select(length ? lent : NULL, length, header);
    model_selected want = model_select(flash, length, header);
    tell(t, "select: number %u, slot %u\n", want.number, want.slot);
    seen(SEEN_SELECT_NUMBER, want.number);
    same_number(t, "selector's number", got.number, want.number);
    same_number(t, "slot", got.slot, want.slot);
    same_product(t, lent, flash, length, header);
    same_image(t, lent, flash, length, (uint32_t)offsets[0]);
    same_image(t, lent, flash, length, (uint32_t)offsets[1]);
    same_bytes(t, "lent flash", lent, flash, length);
    if (!shelf_intact(&held))
        differ(t, "a byte beside the flash was written");
    t->calls++;
}

/* A file with an image, cut short, exact or with bytes after it. Gives its length. */
static size_t make_file(trial *t, uint8_t *file)
{
    uint32_t code = once_in(t->c, 24) ? MOST_CODE - pick(t->c, 2) : 1 + pick(t->c, 200);
    size_t length = IMAGE_HEADER + code;
    make_image(t, file, code);
    fill(t->c, file + length, 32);
    if (once_in(t->c, 2))
        length += pick(t->c, 32);
    if (once_in(t->c, 10))
        damage_image(t, file, length);
    if (once_in(t->c, 12))
        length = once_in(t->c, 2) ? pick(t->c, (uint32_t)length) : IMAGE_HEADER + code - 1;
    return length;
}

void offer_case(trial *t)
{
    static shelf shelves[2];
    static uint8_t content[2][MOST_FILE];
    uint8_t *files[2];
    size_t lengths[2];
    bool at_end = !once_in(t->c, 3);
    for (int i = 0; i < 2; i++) {
        if (!shelves[i].first)
            shelf_build(&shelves[i], MOST_FILE);
        if (i == 0 || !once_in(t->c, 8)) {
            lengths[i] = make_file(t, content[i]);
        } else {
            lengths[i] = lengths[0];
            memcpy(content[1], content[0], lengths[0]);
        }
        files[i] = shelf_lend(&shelves[i], lengths[i], at_end);
        memcpy(files[i], content[i], lengths[i]);
        tell_bytes(t, "file", files[i], lengths[i]);
    }
    und_offered got = und_offer(files[0], lengths[0], files[1], lengths[1]);
    model_offered want = model_offer(content[0], lengths[0], content[1], lengths[1]);
    tell(t, "offer: number %u, file %u, place %zu, size %zu\n", want.number, want.file, want.place, want.size);
    seen(SEEN_OFFER_NUMBER, want.number);
    same_number(t, "offer's number", got.number, want.number);
    same_number(t, "offered file", got.file, want.file);
    same_number(t, "place of the code", got.place, want.place);
    same_number(t, "size of the code", got.size, want.size);
    for (int i = 0; i < 2; i++)
        same_image(t, files[i], content[i], lengths[i], 0);
    same_bytes(t, "lent installed file", files[0], content[0], lengths[0]);
    same_bytes(t, "lent candidate", files[1], content[1], lengths[1]);
    if (!shelf_intact(&shelves[0]) || !shelf_intact(&shelves[1]))
        differ(t, "a byte beside a file was written");
    t->calls++;
}
