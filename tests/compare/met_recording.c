#include "met_recording.h"

#include "seen.h"

#include <stdlib.h>
#include <string.h>

/* The entries of a file, up to its end or to the first one that is wrong. */
typedef struct {
    size_t at;           /* where the walk has come to */
    uint32_t entries;    /* passed */
    uint32_t first_kind; /* 0: there was none */
    uint32_t last_kind, turns;
} walk;

static seen_entry entry_class(size_t length)
{
    switch (length) {
    case 0: return ENTRY_EMPTY;
    case 1: return ENTRY_ONE;
    case MOST_ENTRY: return ENTRY_MOST;
    default: return length < 256 ? ENTRY_SHORT : ENTRY_LONG;
    }
}

static size_t little16(const uint8_t *bytes)
{
    return bytes[0] + 256u * bytes[1];
}

/* Passes the next entry, if it is there and right. */
static bool pass(walk *w, const stream *file)
{
    const uint8_t *entry = file->bytes + w->at;
    size_t left = file->length - w->at, length = left < ENTRY_HEAD ? 0 : little16(entry + 1);
    if (left < ENTRY_HEAD + length || (entry[0] != ENTRY_HOST && entry[0] != ENTRY_DEVICE))
        return false;
    seen(entry[0] == ENTRY_HOST ? SEEN_ENTRY_HOST : SEEN_ENTRY_DEVICE, entry_class(length));
    w->turns += w->entries > 0 && entry[0] != w->last_kind;
    w->first_kind = w->entries == 0 ? entry[0] : w->first_kind;
    w->last_kind = entry[0];
    w->at += ENTRY_HEAD + length;
    w->entries++;
    return true;
}

static seen_order order_class(const walk *w)
{
    if (w->turns == 0)
        return w->entries ? ORDER_ONE_KIND : ORDER_NO_ENTRY;
    if (w->turns > 1)
        return ORDER_IN_TURNS;
    return w->first_kind == ENTRY_HOST ? ORDER_HOST_FIRST : ORDER_DEVICE_FIRST;
}

/* A mark or a version that is wrong: where, or how much of it there is. */
static void note_head(const stream *file, uint32_t number)
{
    static const uint8_t head[] = {'B', 'L', 'G', 1, 0};
    size_t right = 0;
    while (right < file->length && right < sizeof head && file->bytes[right] == head[right])
        right++;
    if (right == file->length)
        seen(SEEN_HEAD_CUT, (uint32_t)right);
    else if (file->length >= sizeof head && memcmp(file->bytes + right + 1, head + right + 1, 4 - right) == 0)
        seen(SEEN_HEAD_WRONG, (uint32_t)right);
    else if (number == 81 && file->length >= sizeof head && memcmp(file->bytes + 3, head + 3, 2) != 0)
        seen(SEEN_WRONG_BOTH, 81);
}

/* Of an entry that is cut short there are so many bytes. */
static uint32_t cut_class(const uint8_t *entry, size_t there)
{
    if (there >= ENTRY_HEAD && there + 1 == ENTRY_HEAD + little16(entry + 1))
        return CUT_ONE_SHORT;
    return there <= ENTRY_HEAD ? (uint32_t)there : CUT_IN_BYTES;
}

/* The entry that is wrong. */
static void note_wrong_entry(const stream *file, const walk *w, uint32_t number)
{
    const uint8_t *entry = file->bytes + w->at;
    size_t there = file->length - w->at;
    seen(number == 83 ? SEEN_AFTER_83 : SEEN_AFTER_84, w->entries ? 1 : 0);
    if (number == 83) {
        seen(SEEN_UNKNOWN_KIND, entry[0] < 4 ? entry[0] : 4);
        seen(SEEN_UNKNOWN_AND_CUT, there < ENTRY_HEAD || there < ENTRY_HEAD + little16(entry + 1));
        return;
    }
    seen(entry[0] == ENTRY_HOST ? SEEN_CUT_HOST : SEEN_CUT_DEVICE, cut_class(entry, there));
}

/* The file by itself, whatever lengths the memories have. Gives its number. */
static uint32_t note_file(const stream *file)
{
    walk w = {.at = RECORDING_HEAD};
    model_recording parts = model_read_recording(file->bytes, file->length);
    uint32_t number = parts.number;
    model_free_recording(&parts);
    if (number == 81 || number == 82) {
        note_head(file, number);
        return number;
    }
    while (w.at < file->length && pass(&w, file))
        ;
    seen(SEEN_ENTRIES, w.entries < 2 ? w.entries : w.entries < 100 ? 2 : 3);
    if (number)
        note_wrong_entry(file, &w, number);
    else
        seen(SEEN_ENTRY_ORDER, order_class(&w));
    return number;
}

/* Which of the lengths are refused: 1 work buffer, 2 RAM, 4 flash. */
static uint32_t refused_lengths(const model_memories *m)
{
    return (model_work_length(m->work_length) ? 0 : 1u) + (model_ram_length(m->ram_length) ? 0 : 2u) +
           (model_flash_length(m->flash_length) ? 0 : 4u);
}

static seen_replay ending_class(const model_replayed *r, size_t sent, size_t recorded)
{
    if (r->equal)
        return REPLAY_EQUAL;
    if (recorded == 0)
        return REPLAY_NONE;
    if (r->place == sent)
        return REPLAY_TOO_MANY;
    if (r->place == recorded)
        return REPLAY_TOO_FEW;
    return r->place == 0 ? REPLAY_AT_FIRST : r->place + 1 == sent ? REPLAY_AT_LAST : REPLAY_BETWEEN;
}

/* How far on in the replies something is. */
static uint32_t far_class(size_t place)
{
    return place < 256 ? 0 : place < 4096 ? 1 : place < 60000 ? 2 : 3;
}

/* What commands stored once the reply that differs was sent: a session with room up to it has not come further. */
static void note_stored_after(const setting *s, const desk *d, const model_bytes *host, size_t place)
{
    model_memories then = contents_of(LEAD_CONTENTS, 0, 0, 0);
    uint8_t *replies = malloc(place + 1);
    uint32_t record[WORDS];
    model_line line = {host->bytes, host->count, 0, replies, place + 1, 0};
    copy_contents(&then, &s->contents);
    model_fresh(KIND_UARTBOOT, record);
    model_uartboot_call(record, &line, &then);
    if (memcmp(then.ram, d->model.ram, then.ram_length) != 0)
        seen(SEEN_STORED_AFTER, 0);
    if (memcmp(then.flash, d->model.flash, then.flash_length) != 0)
        seen(SEEN_STORED_AFTER, 1);
    free(replies);
}

static void note_replay(const setting *s, const desk *d, const stream *file, const model_replayed *r)
{
    model_recording parts = model_read_recording(file->bytes, file->length);
    model_memories uncut = contents_of(LEAD_CONTENTS, 0, 0, 0);
    copy_contents(&uncut, &s->contents);
    model_ending e = model_uncut(KIND_UARTBOOT, parts.host.bytes, parts.host.count, &uncut);
    seen(SEEN_REPLAY_ENDING, ending_class(r, e.sent, parts.device.count));
    seen(r->equal ? SEEN_EQUAL_FAR : SEEN_DIFFERS_FAR, far_class(r->equal ? e.sent : r->place));
    if (e.over && e.taken < parts.host.count)
        seen(SEEN_HOST_AFTER_RUN, r->equal);
    if (!r->equal && r->place < e.sent)
        note_stored_after(s, d, &parts.host, r->place);
    free(e.replies);
    model_free_recording(&parts);
}

void met_recording(const setting *s, const desk *d, const stream *file, const model_replayed *r)
{
    uint32_t number = note_file(file), lengths = refused_lengths(&s->contents);
    seen(SEEN_REPLAY_NUMBER, r->number);
    seen(SEEN_REPLAY_NULL, file->length == 0 && d->null_if_empty);
    if (lengths)
        seen(SEEN_REPLAY_LENGTHS, lengths);
    if (r->number == 1 || r->number == 2 || r->number == 3)
        seen(SEEN_REPLAY_1 + (r->number - 1), number);
    if (r->number == 0)
        note_replay(s, d, file, r);
}
