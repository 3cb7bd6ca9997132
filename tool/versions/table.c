#include "table.h"

#include <stdio.h>
#include <string.h>

/* Of text the number of its line, of fields its own. */
static size_t number_of(const tray *t, size_t index)
{
    return t->lines ? t->lines[index].number : index + 1;
}

static size_t offset_of(size_t index)
{
    return index * UND_VERSION_FIELD;
}

static const char *unit_of(const tray *t)
{
    return t->lines ? "line" : "field";
}

/* "parts.txt: 7 versions, 2 of them malformed" */
static void print_head(const tray *t, const ranking *r)
{
    if (t->count == 0)
        printf("%s: no versions", t->name);
    else
        printf("%s: %zu version%s", t->name, t->count, t->count == 1 ? "" : "s");
    if (r->count > 0 && r->malformed_count > 0)
        printf(", %zu of them malformed", r->malformed_count);
    else if (r->malformed_count > 0)
        printf(", %smalformed", t->count == 1 ? "" : "all ");
    printf("\n");
}

static void print_row(const tray *t, const ranked_version *v)
{
    raw_version raw = version_at(t, v->index);
    printf("%5zu  %-*.*s  %5zu", v->place, UND_VERSION_FIELD, (int)raw.kept, (const char *)raw.bytes,
           number_of(t, v->index));
    if (!t->lines)
        printf("  0x%05zX", offset_of(v->index));
    if (v->equal != v->index)
        printf("  same version as %s %zu", unit_of(t), number_of(t, v->equal));
    printf("\n");
}

static void print_rows(const tray *t, const ranking *r)
{
    if (r->count == 0)
        return;
    printf("\nplace  %-*s  %5s%s\n", UND_VERSION_FIELD, "version", unit_of(t), t->lines ? "" : "  offset");
    for (size_t i = 0; i < r->count; i++)
        print_row(t, &r->sorted[i]);
}

static void print_malformed(const tray *t, const ranking *r)
{
    if (r->malformed_count > 0)
        printf("\nmalformed, and so without a place:\n");
    for (size_t i = 0; i < r->malformed_count; i++) {
        size_t index = r->malformed[i];
        raw_version raw = version_at(t, index);
        text line = {0};
        text_add(&line, "  %s %zu", unit_of(t), number_of(t, index));
        if (!t->lines)
            text_add(&line, " at 0x%05zX", offset_of(index));
        text_add(&line, ", ");
        text_add_json(&line, (const char *)raw.bytes, raw.kept);
        if (raw.kept < raw.length)
            text_add(&line, " and %zu more", raw.length - raw.kept);
        text_add(&line, ": ");
        add_fault(&line, &raw);
        printf("%s\n", line.chars);
        text_free(&line);
    }
}

void print_tray(const tray *t, const ranking *r, const char *next)
{
    print_head(t, r);
    print_rows(t, r);
    print_malformed(t, r);
    if (next)
        printf("  next: %s\n", next);
}

/* {"line":7,"version":"1.9" or {"field":7,"offset":96,"version":"1.9" */
static void begin_json(text *j, const tray *t, size_t index)
{
    raw_version raw = version_at(t, index);
    text_add(j, "{\"%s\":%zu", unit_of(t), number_of(t, index));
    if (!t->lines)
        text_add(j, ",\"offset\":%zu", offset_of(index));
    text_add(j, ",\"version\":");
    text_add_json(j, (const char *)raw.bytes, raw.kept);
}

static void add_ranked_json(text *j, const tray *t, const ranked_version *v)
{
    begin_json(j, t, v->index);
    text_add(j, ",\"place\":%zu,\"rank\":[", v->place);
    for (size_t i = 0; i < UND_RANK_NUMBERS; i++)
        text_add(j, "%s%u", i ? "," : "", v->rank[i]);
    text_add(j, "]}");
}

static void add_malformed_json(text *j, const tray *t, const ranking *r, size_t index)
{
    raw_version raw = version_at(t, index);
    text words = {0};
    add_fault(&words, &raw);
    begin_json(j, t, index);
    text_add(j, ",\"length\":%zu,\"number\":%u,\"words\":", raw.length,
             r->ranks[index * UND_TRAY_ENTRY + UND_RANK_NUMBERS]);
    text_add_json(j, words.chars, words.length);
    text_add(j, "}");
    text_free(&words);
}

void print_tray_json(const tray *t, const ranking *r, const char *next)
{
    text j = {0};
    text_add(&j, "{\"file\":");
    text_add_json(&j, t->path, strlen(t->path));
    text_add(&j, ",\"count\":%zu,\"number\":%u,\"versions\":[", t->count, r->number);
    for (size_t i = 0; i < r->count; i++) {
        text_add(&j, "%s", i ? "," : "");
        add_ranked_json(&j, t, &r->sorted[i]);
    }
    text_add(&j, "],\"malformed\":[");
    for (size_t i = 0; i < r->malformed_count; i++) {
        text_add(&j, "%s", i ? "," : "");
        add_malformed_json(&j, t, r, r->malformed[i]);
    }
    text_add(&j, "]");
    if (next) {
        text_add(&j, ",\"next\":");
        text_add_json(&j, next, strlen(next));
    }
    text_add(&j, "}\n");
    fputs(j.chars, stdout);
    text_free(&j);
}
