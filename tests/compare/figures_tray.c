/* Trays at the edges of list and room. Their entries are written out, or follow from a field's place. */
#include "figures.h"
#include "undalisho.h"

#include <stdio.h>
#include <string.h>

enum {
    MOST_MADE = 1025,    /* fields that get a text; the bytes after them are 00 */
    MOST_FIELDS = 65537, /* more than 16 bits can count */
    BESIDE = 8,          /* numbers before the room, and after it */
    MARK = 0xEE          /* each byte of numbers that are not written */
};

/* How long a list is, and the number that it gets with room enough. */
typedef struct {
    size_t length;
    uint32_t number;
} list;

typedef struct {
    const char *name;
    const char *texts[3];
    uint32_t entries[3][TRAY_ENTRY];
} written_tray;

/* clang-format off */
static const list lists[] = {
    {0, 0}, {16, 0}, {16 * 1023, 0}, {16 * 1024, 0}, {16 * 1025, 64}, {16 * MOST_FIELDS, 64},
    {1, 64}, {15, 64}, {17, 64}, {16 * 1024 - 1, 64}, {16 * 1024 + 1, 64}, {16 * 1025 - 1, 64},
};

#define MALFORMED {[RANK_NUMBERS] = 61}

static const written_tray written[] = {
    {"all good", {"1.9", "1.10", "65535.65535.6553"}, {{1, 9}, {1, 10}, {65535, 65535, 6553}}},
    {"malformed in front", {"01.2", "1.2.3.4", "0"}, {MALFORMED, {1, 2, 3, 4}, {0}}},
    {"malformed between", {"1.9", "1..2", "7.0.5"}, {{1, 9}, MALFORMED, {7, 0, 5}}},
    {"malformed at the end", {"10", "9.1", "1.65536"}, {{10}, {9, 1}, MALFORMED}},
    {"all malformed", {"", "1.", "x"}, {MALFORMED, MALFORMED, MALFORMED}},
};
/* clang-format on */

/* The fields, and the same as they are lent, from an odd place on; their entries, and all numbers in and beside the
   room. */
static uint8_t fields[MOST_FIELDS * VERSION_FIELD], lent[1 + sizeof fields];
static uint32_t entries[MOST_MADE][TRAY_ENTRY];
static uint32_t expected[BESIDE + MOST_MADE * TRAY_ENTRY + BESIDE], out[sizeof expected / sizeof *expected];

static void tray_figure(trial *t, const char *name, size_t length, size_t room, uint32_t number)
{
    static uint32_t (*const both[])(const uint8_t *, size_t, uint32_t *, size_t) = {und_rank_tray, model_rank_tray};
    memset(expected, MARK, sizeof expected);
    if (number == 0)
        memcpy(expected + BESIDE, entries, length / VERSION_FIELD * sizeof *entries);
    for (int model = 0; model < 2; model++) {
        memcpy(lent + 1, fields, length);
        memset(out, MARK, sizeof out);
        uint32_t got = both[model](length ? lent + 1 : NULL, length, room ? out + BESIDE : NULL, room);
        if (got != number || memcmp(out, expected, sizeof out) != 0 || memcmp(lent + 1, fields, length) != 0)
            differ(t, "figure: %s tray, %s: %zu bytes, room %zu", model ? "the model's" : "the library's", name, length,
                   room);
    }
}

/* Room that is exact, longer, one number short, none at all. */
static void every_room(trial *t, const char *name, list l)
{
    size_t count = l.length / VERSION_FIELD, needed = (count < MOST_MADE ? count : MOST_MADE) * TRAY_ENTRY;
    uint32_t if_short = l.number ? l.number : 65;
    tray_figure(t, name, l.length, needed, l.number);
    tray_figure(t, name, l.length, needed + BESIDE / 2, l.number);
    if (needed == 0)
        return;
    tray_figure(t, name, l.length, needed - 1, if_short);
    tray_figure(t, name, l.length, 0, if_short);
}

/* Field i has the text i.7; every fifth one has a dot after it. */
static void put_fields_by_place(void)
{
    for (uint32_t i = 0; i < MOST_MADE; i++) {
        const uint32_t good[TRAY_ENTRY] = {i, 7}, malformed[TRAY_ENTRY] = MALFORMED;
        char text[VERSION_FIELD];
        bool fifth = i % 5 == 4;
        snprintf(text, sizeof text, fifth ? "%u.7." : "%u.7", i);
        field_of(text, fields + i * VERSION_FIELD);
        memcpy(entries[i], fifth ? malformed : good, sizeof *entries);
    }
}

static void put_written(const written_tray *w)
{
    for (int k = 0; k < 3; k++)
        field_of(w->texts[k], fields + k * VERSION_FIELD);
    memcpy(entries, w->entries, sizeof w->entries);
}

void tray_figures(trial *t)
{
    put_fields_by_place();
    for (size_t i = 0; i < sizeof lists / sizeof *lists; i++)
        every_room(t, "fields by place", lists[i]);
    for (size_t i = 0; i < sizeof written / sizeof *written; i++) {
        put_written(&written[i]);
        every_room(t, written[i].name, (list){16 * 3, 0});
    }
}
