#include "view.h"

#include "exits.h"
#include "field.h"
#include "say.h"
#include "words.h"

#include <errno.h>
#include <stdio.h>
#include <string.h>
#include <sys/stat.h>

/* What the library says. An offset of more than 32 bits lies in no flash, nor does the largest of 32 bits. */
static void ask_library(flash_view *v)
{
    uint32_t header = v->header > UINT32_MAX ? UINT32_MAX : (uint32_t)v->header;
    v->product = und_read_product(v->flash.bytes, v->flash.length, header);
    v->selected = und_select(v->flash.bytes, v->flash.length, header);
    if (v->product.number != 0)
        return;
    v->offsets[0] = v->product.first;
    v->offsets[1] = v->product.second;
    for (int i = 0; i < 2; i++)
        v->images[i] = und_read_image(v->flash.bytes, v->flash.length, v->offsets[i]);
    if (v->selected.slot == 0)
        return;
    v->next_id = und_next_id((uint8_t)v->images[v->selected.slot - 1].id);
    v->next_slot = 3 - v->selected.slot;
}

int view_file(flash_view *v, const char *path, unsigned long header)
{
    *v = (flash_view){.path = path, .header = header};
    if (!read_file(path, UND_FLASH_MAX, &v->flash))
        return fail_errno("name a file with the flash's bytes", "%s cannot be read", path);
    ask_library(v);
    if (v->product.number != UND_BAD_FLASH)
        return DONE;
    struct stat there;
    bool regular = stat(path, &there) == 0 && S_ISREG(there.st_mode);
    long long bytes = regular ? (long long)there.st_size : (long long)v->flash.length;
    return refuse(UND_BAD_FLASH, "%s has %s%lld bytes", path, !regular && bytes > UND_FLASH_MAX ? "at least " : "",
                  bytes);
}

/* A version field as people write it; in quotes, with a remark, where its text is malformed. */
static void add_version(text *t, const uint8_t *field)
{
    size_t length = field_text_length(field);
    if (und_rank(field, UND_VERSION_FIELD).number == 0) {
        text_add_bytes(t, (const char *)field, length);
        return;
    }
    text_add_json(t, (const char *)field, length);
    text_add(t, " (malformed)");
}

void add_image(text *t, const uint8_t *memory, const und_image *image)
{
    if (image->rule == UND_RULE_HEADER || image->rule == UND_RULE_MARK) {
        text_add(t, "not valid: %s", rule_meaning(image->rule)->what);
        return;
    }
    text_add(t, "id %u, version ", image->id);
    add_version(t, memory + image->version_place);
    text_add(t, ", ");
    add_count(t, image->size);
    text_add(t, ", %s%s", image->rule ? "not valid: " : "", rule_meaning(image->rule)->what);
}

void add_image_json(text *t, const uint8_t *memory, const und_image *image)
{
    const char *words = rule_meaning(image->rule)->what;
    text_add(t, "\"valid\":%s,\"rule\":%u,\"words\":", image->rule ? "false" : "true", image->rule);
    text_add_json(t, words, strlen(words));
    if (image->rule == UND_RULE_HEADER || image->rule == UND_RULE_MARK)
        return;
    const uint8_t *field = memory + image->version_place;
    text_add(t, ",\"id\":%u,\"size\":%u,\"version\":", image->id, image->size);
    text_add_json(t, (const char *)field, field_text_length(field));
    text_add(t, ",\"version_malformed\":%s", und_rank(field, UND_VERSION_FIELD).number ? "true" : "false");
}

void print_images(const flash_view *v)
{
    if (v->product.number != 0) {
        printf("  product header at 0x%05lX: %s\n", v->header, meaning_of(v->product.number)->what);
        return;
    }
    printf("  product header at 0x%05lX\n", v->header);
    for (uint32_t i = 0; i < 2; i++) {
        text t = {0};
        add_image(&t, v->flash.bytes, &v->images[i]);
        printf("  slot %u at 0x%05X: %s%s\n", i + 1, v->offsets[i], t.chars,
               v->selected.slot == i + 1 ? ", STARTS" : "");
        text_free(&t);
    }
}

/* Where the newer id is the smaller one. */
static void add_new_round(text *t, uint32_t older, uint32_t newer)
{
    if (newer < older)
        text_add(t, ", since after %u the ids begin again at %u", older, newer);
}

/* Why that slot starts. */
static void add_why(text *t, const flash_view *v)
{
    uint32_t slot = v->selected.slot;
    const und_image *winner = &v->images[slot - 1], *other = &v->images[2 - slot];
    if (other->rule != 0) {
        text_add(t, "it holds the only valid image");
    } else if (winner->id == other->id) {
        text_add(t, "both images are valid and have the same id");
    } else {
        text_add(t, "both images are valid, and id %u is newer than id %u", winner->id, other->id);
        add_new_round(t, other->id, winner->id);
    }
}

void print_verdict(const flash_view *v)
{
    if (v->selected.slot == 0) {
        const meaning *m = meaning_of(v->selected.number);
        printf("no slot will start: %s\n  next: %s\n", m->what, m->next);
        return;
    }
    text why = {0};
    add_why(&why, v);
    printf("slot %u will start: %s\n", v->selected.slot, why.chars);
    text_free(&why);
}

void add_next_id(text *t, const flash_view *v)
{
    text_add(t, "id %u, in slot %u", v->next_id, v->next_slot);
    add_new_round(t, v->images[v->selected.slot - 1].id, v->next_id);
}

void print_next_id(const flash_view *v)
{
    text t = {0};
    add_next_id(&t, v);
    printf("the next image should have %s\n", t.chars);
    text_free(&t);
}

/* Why that slot starts, and the id and the slot for the next image. */
static void add_start_json(text *t, const flash_view *v)
{
    text why = {0};
    add_why(&why, v);
    text_add(t, ",\"words\":");
    text_add_json(t, why.chars, why.length);
    text_add(t, ",\"next_id\":%u,\"next_slot\":%u", v->next_id, v->next_slot);
    text_free(&why);
}

void add_view_json(text *t, const flash_view *v, int code)
{
    text_add(t, "\"flash\":");
    text_add_json(t, v->path, strlen(v->path));
    text_add(t, ",\"bytes\":%zu,\"header\":%lu,\"slot\":%u,\"number\":%u", v->flash.length, v->header, v->selected.slot,
             v->selected.number);
    if (v->selected.number != 0)
        text_add_meaning(t, meaning_of(v->selected.number), code);
    else
        add_start_json(t, v);
    text_add(t, ",\"images\":[");
    for (uint32_t i = 0; i < 2 && v->product.number == 0; i++) {
        text_add(t, "%s{\"slot\":%u,\"offset\":%u,", i ? "," : "", i + 1, v->offsets[i]);
        add_image_json(t, v->flash.bytes, &v->images[i]);
        text_add(t, "}");
    }
    text_add(t, "]");
}
