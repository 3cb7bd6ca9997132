/* Cases of trays: version fields ranked in one call. */
#include "fill.h"
#include "lend.h"
#include "seen.h"
#include "texts.h"
#include "undalisho.h"

#include <string.h>

enum {
    FULL_LIST = MOST_TRAY * VERSION_FIELD,
    LONGEST_LIST = FULL_LIST + 2 * VERSION_FIELD,
    LONGEST_ROOM = LONGEST_LIST / VERSION_FIELD * TRAY_ENTRY + 64,
    MADE = 8 /* fields of a list that are made for it; the others repeat them */
};

/* What is lent to the library; `kept` and `want_ranks` hold the same for the model. */
typedef struct {
    uint8_t *fields;
    uint32_t *ranks;
    size_t length, count, room; /* the list's bytes and whole fields, the room's numbers */
} tray;

static shelf field_shelf, rank_shelf;
static uint8_t kept[LONGEST_LIST];
static uint32_t want_ranks[LONGEST_ROOM];

/* Mostly a few whole fields. */
static size_t list_length(trial *t)
{
    static const uint32_t edges[] = {
        VERSION_FIELD - 1, VERSION_FIELD + 1, FULL_LIST, FULL_LIST + VERSION_FIELD, FULL_LIST - 1, FULL_LIST + 1,
    };
    if (once_in(t->c, 16))
        return PICK_OF(t->c, edges);
    size_t whole = pick(t->c, once_in(t->c, 60) ? MOST_TRAY : MADE) * VERSION_FIELD;
    return whole + (once_in(t->c, 12) ? pick(t->c, VERSION_FIELD) : 0);
}

/* Makes whole fields, the last one past the list's end where the list is not whole. */
static void make_list(trial *t, size_t length)
{
    uint64_t order = length > MADE * VERSION_FIELD ? pick(t->c, 1u << 20) : 0;
    for (size_t at = 0; at < length; at += VERSION_FIELD)
        if (at < MADE * VERSION_FIELD)
            make_version(t, kept + at, VERSION_FIELD);
        else
            memcpy(kept + at, kept + next_random(&order) % MADE * VERSION_FIELD, VERSION_FIELD);
}

static tray lend_tray(trial *t)
{
    tray y = {.length = list_length(t)};
    y.count = y.length / VERSION_FIELD;
    y.room = room_near(t->c, y.count * TRAY_ENTRY);
    size_t room_bytes = y.room * sizeof *y.ranks;
    bool at_end = !once_in(t->c, 3);
    if (!field_shelf.first) {
        shelf_build(&field_shelf, sizeof kept);
        shelf_build(&rank_shelf, sizeof want_ranks);
    }
    y.fields = shelf_lend(&field_shelf, y.length, at_end);
    y.ranks = (void *)shelf_lend(&rank_shelf, room_bytes, at_end);
    make_list(t, y.length);
    memcpy(y.fields, kept, y.length);
    fill(t->c, (uint8_t *)want_ranks, room_bytes);
    memcpy(y.ranks, want_ranks, room_bytes);
    return y;
}

static seen_list list_class(size_t length)
{
    if (length % VERSION_FIELD == 0)
        switch (length / VERSION_FIELD) {
        case 0: return LIST_NONE;
        case 1: return LIST_ONE;
        case MOST_TRAY: return LIST_MOST;
        case MOST_TRAY + 1: return LIST_ABOVE;
        default: return LIST_WHOLE;
        }
    if (length == VERSION_FIELD - 1)
        return LIST_SHORT;
    if (length == VERSION_FIELD + 1)
        return LIST_LONG;
    return length > FULL_LIST ? LIST_MOST_AND_PART : LIST_PART;
}

static seen_room room_class(size_t room, size_t needed)
{
    if (room >= needed)
        return room == needed ? ROOM_EXACT : ROOM_LONGER;
    if (room + 1 == needed)
        return ROOM_ONE_SHORT;
    return room < needed / 2 ? ROOM_FAR_SHORT : ROOM_SHORT;
}

static seen_what seen_with(uint32_t number)
{
    switch (number) {
    case 0: return SEEN_TRAY_0;
    case 64: return SEEN_TRAY_64;
    default: return SEEN_TRAY_65;
    }
}

static void note_call(const tray *y, uint32_t number)
{
    size_t needed = y->count * TRAY_ENTRY;
    seen(SEEN_TRAY_NUMBER, number);
    seen(seen_with(number), list_class(y->length));
    if (number != 64)
        seen(SEEN_TRAY_ROOM, room_class(y->room, needed));
    else if (y->room < needed)
        seen(SEEN_TRAY_64_AND_65, list_class(y->length));
}

static void note_entries(const tray *y)
{
    size_t malformed = 0, place = 0;
    for (size_t i = 0; i < y->count; i++) {
        uint32_t number = want_ranks[i * TRAY_ENTRY + RANK_NUMBERS];
        seen(SEEN_TRAY_ENTRY, number);
        if (number == 0)
            continue;
        malformed++;
        place = i;
    }
    seen_field where = place == 0 ? FIELD_FIRST : FIELD_BETWEEN;
    if (malformed == 1 && y->count > 2)
        seen(SEEN_TRAY_MALFORMED, place == y->count - 1 ? FIELD_LAST : where);
}

/* All numbers of the room, those past the entries too. */
static void same_room(trial *t, const tray *y)
{
    for (size_t i = 0; i < y->room; i++)
        if (y->ranks[i] != want_ranks[i])
            differ(t, "tray's entry %zu, number %zu: library %u, model %u", i / TRAY_ENTRY, i % TRAY_ENTRY, y->ranks[i],
                   want_ranks[i]);
}

/* Each entry is what the library gives for its field alone. */
static void same_alone(trial *t, const tray *y)
{
    for (size_t i = 0; i < y->count; i++) {
        const uint32_t *entry = y->ranks + i * TRAY_ENTRY;
        und_ranked alone = und_rank(y->fields + i * VERSION_FIELD, VERSION_FIELD);
        if (memcmp(entry, alone.rank, sizeof alone.rank) != 0 || entry[RANK_NUMBERS] != alone.number)
            differ(t, "tray's entry %zu is not the rank of its field alone", i);
    }
    t->calls += y->count;
}

void tray_case(trial *t)
{
    tray y = lend_tray(t);
    bool no_fields = y.length == 0 && !once_in(t->c, 3), no_ranks = y.room == 0 && !once_in(t->c, 3);
    uint32_t got = und_rank_tray(no_fields ? NULL : y.fields, y.length, no_ranks ? NULL : y.ranks, y.room);
    uint32_t want = model_rank_tray(kept, y.length, want_ranks, y.room);
    tell_bytes(t, "fields", kept, y.length);
    tell(t, "tray: %zu bytes, room %zu: number %u\n", y.length, y.room, want);
    seen(SEEN_TRAY_NULL, (no_fields ? 1 : 0) + (no_ranks ? 2 : 0));
    note_call(&y, want);
    same_number(t, "tray's number", got, want);
    same_room(t, &y);
    same_bytes(t, "lent fields", y.fields, kept, y.length);
    if (!shelf_intact(&field_shelf) || !shelf_intact(&rank_shelf))
        differ(t, "a byte beside fields or ranks was written");
    if (want == 0 && !differs(t)) {
        note_entries(&y);
        same_alone(t, &y);
    }
    t->calls++;
}
