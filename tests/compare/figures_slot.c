/* Which slot starts by the ids of two valid images, for every pair of ids, and the id that follows each. */
#include "figures.h"
#include "fill.h"
#include "undalisho.h"

#include <string.h>

enum { IDS = 256, FIRST_IMAGE = 0x100, SECOND_IMAGE = 0x200, ID_PLACE = 3 };

typedef struct {
    uint8_t bytes[SECTOR];
} two_images;

/* Its code is 123456789, and its CRC-32 the one that is published for that. */
static void put_image(uint8_t *at)
{
    memcpy(at, (const uint8_t[]){0x70, 0x51, 0xAA, 0, 9}, 5);
    memcpy(at + IMAGE_HEADER, "123456789", 9);
    put_little(at + 8, 4, 0xCBF43926);
}

static two_images valid_images(void)
{
    two_images flash = {{0x70, 0x52}};
    put_little(flash.bytes + 4, 4, FIRST_IMAGE);
    put_little(flash.bytes + 8, 4, SECOND_IMAGE);
    put_image(flash.bytes + FIRST_IMAGE);
    put_image(flash.bytes + SECOND_IMAGE);
    return flash;
}

/* What the library gives; the model gives the same. */
static uint32_t slot_by_ids(trial *t, two_images *flash, uint8_t first, uint8_t second)
{
    flash->bytes[FIRST_IMAGE + ID_PLACE] = first;
    flash->bytes[SECOND_IMAGE + ID_PLACE] = second;
    und_selected got = und_select(flash->bytes, sizeof flash->bytes, 0);
    model_selected model = model_select(flash->bytes, sizeof flash->bytes, 0);
    if (got.number != 0 || model.number != 0 || got.slot != model.slot)
        differ(t, "figure: ids %u and %u: slot %u, the model's %u", first, second, got.slot, model.slot);
    return got.slot;
}

static void named_pairs(trial *t, two_images *flash)
{
    static const struct {
        uint8_t first, second;
        uint32_t slot;
    } pairs[] = {
        {9, 10, 2}, {10, 9, 1}, {7, 7, 1}, {255, 0, 2}, {0, 255, 1}, {254, 0, 1}, {0, 254, 2}, {255, 1, 1}, {1, 255, 2},
    };
    for (size_t i = 0; i < sizeof pairs / sizeof *pairs; i++)
        if (slot_by_ids(t, flash, pairs[i].first, pairs[i].second) != pairs[i].slot)
            differ(t, "figure: slot for ids %u and %u", pairs[i].first, pairs[i].second);
}

static void all_pairs(trial *t, two_images *flash)
{
    for (uint32_t pair = 0; pair < IDS * IDS; pair++)
        slot_by_ids(t, flash, (uint8_t)(pair / IDS), (uint8_t)(pair % IDS));
}

/* An image with the next id starts, in either slot. */
static void next_ids(trial *t, two_images *flash)
{
    for (uint32_t i = 0; i < IDS; i++) {
        uint8_t id = (uint8_t)i, next = und_next_id(id);
        if (next != model_next_id(id) || slot_by_ids(t, flash, id, next) != 2 || slot_by_ids(t, flash, next, id) != 1)
            differ(t, "figure: id %u is followed by %u", id, next);
    }
}

void slot_figures(trial *t)
{
    two_images flash = valid_images();
    named_pairs(t, &flash);
    all_pairs(t, &flash);
    next_ids(t, &flash);
}
