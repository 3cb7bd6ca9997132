#include "warnings.h"

#include <stdbool.h>
#include <stdio.h>
#include <string.h>

/* Product header, image 1 and image 2; each pair of them may overlap, and the version may be the lower one. */
enum { PARTS = 3, PAIRS = 3, MOST = PAIRS + 1 };

typedef struct {
    size_t count;
    text each[MOST];
} warnings;

/* Bytes of the flash from first on, up to the one before end. There are none where these are equal. */
typedef struct {
    size_t first, end;
} extent;

typedef struct {
    char chars[UND_VERSION_FIELD + 1];
} version;

/* A copy, since the fields of images that overlap may overlap too, and the library wants them apart. */
static version version_of(const flash_view *v, const und_image *image)
{
    version copy = {{0}};
    memcpy(copy.chars, v->flash.bytes + image->version_place, UND_VERSION_FIELD);
    return copy;
}

/* A malformed version is neither lower nor higher. */
static bool is_lower(const version *a, const version *b)
{
    const uint8_t *first = (const uint8_t *)a->chars, *second = (const uint8_t *)b->chars;
    return und_order(first, UND_VERSION_FIELD, second, UND_VERSION_FIELD).order < 0;
}

static void warn_of_version(warnings *w, const flash_view *v)
{
    uint32_t slot = v->selected.slot;
    if (slot == 0 || v->images[2 - slot].rule != 0)
        return;
    const und_image *winner = &v->images[slot - 1], *other = &v->images[2 - slot];
    version starts = version_of(v, winner), stays = version_of(v, other);
    if (!is_lower(&starts, &stays))
        return;
    text *t = &w->each[w->count++];
    text_add(t, "slot %u starts with version %s, which is lower than version %s in slot %u: ", slot, starts.chars,
             stays.chars, 3 - slot);
    if (winner->id == other->id)
        text_add(t, "both ids are %u, so slot 1 starts", winner->id);
    else
        text_add(t, "the ids decide, %u against %u", winner->id, other->id);
    text_add(t, "; give the image with the higher version ");
    add_next_id(t, v);
}

/* How many bytes of code the image has; 0 where they would not all lie in the flash, or are more than code may have,
   which the library tells by making no header for them. */
static size_t code_bytes(const flash_view *v, const und_image *image)
{
    if (image->size > v->flash.length - image->code_place)
        return 0;
    const uint8_t *code = v->flash.bytes + image->code_place, *field = v->flash.bytes + image->version_place;
    uint32_t number = und_make_image_header(code, image->size, 0, field, UND_VERSION_FIELD, 0).number;
    return number == UND_LONG_CODE ? 0 : image->size;
}

/* Header and code, valid or not: an overlap may be what has made an image not valid. */
static extent image_extent(const flash_view *v, int index)
{
    const und_image *image = &v->images[index];
    if (image->rule == UND_RULE_HEADER || image->rule == UND_RULE_MARK)
        return (extent){0, 0};
    return (extent){v->offsets[index], image->code_place + code_bytes(v, image)};
}

static void warn_of_overlap(warnings *w, const char *a_name, extent a, const char *b_name, extent b)
{
    size_t first = a.first > b.first ? a.first : b.first, end = a.end < b.end ? a.end : b.end;
    if (first < end)
        text_add(&w->each[w->count++],
                 "%s and %s overlap, from 0x%05zX to 0x%05zX: writing one damages the other; move one of them", a_name,
                 b_name, first, end - 1);
}

static void warn_of_overlaps(warnings *w, const flash_view *v)
{
    static const char *const names[PARTS] = {"product header", "image 1", "image 2"};
    static const int pairs[PAIRS][2] = {{0, 1}, {0, 2}, {1, 2}};
    const extent extents[PARTS] = {
        {v->header, v->header + sizeof((und_product_header *)0)->bytes}, image_extent(v, 0), image_extent(v, 1)};
    for (int i = 0; i < PAIRS; i++) {
        int a = pairs[i][0], b = pairs[i][1];
        warn_of_overlap(w, names[a], extents[a], names[b], extents[b]);
    }
}

static warnings warnings_of(const flash_view *v)
{
    warnings w = {0};
    if (v->product.number == 0) {
        warn_of_version(&w, v);
        warn_of_overlaps(&w, v);
    }
    return w;
}

void print_warnings(const flash_view *v)
{
    warnings w = warnings_of(v);
    for (size_t i = 0; i < w.count; i++) {
        printf("warning: %s\n", w.each[i].chars);
        text_free(&w.each[i]);
    }
}

void add_warnings_json(text *t, const flash_view *v)
{
    warnings w = warnings_of(v);
    text_add(t, ",\"warnings\":[");
    for (size_t i = 0; i < w.count; i++) {
        text_add(t, "%s", i ? "," : "");
        text_add_json(t, w.each[i].chars, w.each[i].length);
        text_free(&w.each[i]);
    }
    text_add(t, "]");
}
