#include "entries.h"

#include "fill.h"
#include "streams.h"

#include <string.h>

/* A place in bytes, of which there is one at least: mostly at the ends, or where room for replies might end. */
static size_t some_place(trial *t, size_t length)
{
    uint64_t edges[] = {0, length - 1, length / 2, 64, 256, 512, 1024, 4096, 16384, 65536};
    return (size_t)(once_in(t->c, 3) ? pick(t->c, (uint32_t)length) : near_edges(t->c, edges, 10)) % length;
}

static void add_some(trial *t, stream *s)
{
    for (uint32_t left = 1 + pick(t->c, once_in(t->c, 4) ? 300 : 5); left > 0; left--)
        stream_add(s, (uint8_t)pick(t->c, 256));
}

static void drop_end(trial *t, stream *s)
{
    size_t most = once_in(t->c, 2) ? 1 : s->length;
    if (s->length)
        s->length -= 1 + pick(t->c, (uint32_t)most);
}

static void change_byte(trial *t, stream *s)
{
    if (s->length == 0)
        return;
    uint8_t *byte = &s->bytes[some_place(t, s->length)];
    *byte = (uint8_t)(once_in(t->c, 2) ? *byte ^ 1u << pick(t->c, 8) : pick(t->c, 256));
}

/* Leaves out a byte, so that those after it move up. */
static void drop_byte(trial *t, stream *s)
{
    if (s->length == 0)
        return;
    size_t place = some_place(t, s->length);
    memmove(s->bytes + place, s->bytes + place + 1, --s->length - place);
}

bool spoil_spoken(trial *t, spoken *s)
{
    switch (pick(t->c, 12)) {
    case 5:
    case 6: change_byte(t, &s->device); return true;
    case 7: drop_end(t, &s->device); return true;
    case 8: add_some(t, &s->device); return true;
    case 9: drop_byte(t, &s->device); return true;
    case 10: change_byte(t, &s->host); return true;
    case 11: spoil(t, &s->host); return true;
    default: return false;
    }
}

/* What is still to be written of each kind. */
typedef struct {
    const stream *from[2];
    size_t done[2];
} unwritten;

static size_t left_of(const unwritten *u, uint32_t which)
{
    return u->from[which]->length - u->done[which];
}

static void write_next(trial *t, stream *file, unwritten *u, uint32_t which, uint32_t most)
{
    static const uint8_t kinds[] = {ENTRY_HOST, ENTRY_DEVICE}, nothing[1];
    size_t left = left_of(u, which), count = most < MOST_ENTRY ? 1 + pick(t->c, most) : MOST_ENTRY;
    if (count > left)
        count = left;
    if (once_in(t->c, 10))
        count = 0;
    write_entry(file, kinds[which], count ? u->from[which]->bytes + u->done[which] : nothing, count);
    u->done[which] += count;
}

/* All of the host's entries first, all of the device's, or any of them in turns. */
void write_recording(trial *t, stream *file, const spoken *s)
{
    enum { ENOUGH = 300 };
    static const uint32_t lengths[] = {MOST_ENTRY, 1, 4, 24, 300, 5000, MOST_ENTRY - 1};
    unwritten u = {{&s->host, &s->device}, {0, 0}};
    uint32_t order = pick(t->c, 4), most = PICK_OF(t->c, lengths), written = 0;
    write_head(file);
    while (left_of(&u, 0) || left_of(&u, 1) || once_in(t->c, 10)) {
        uint32_t which = order < 2 ? order : pick(t->c, 2);
        if (left_of(&u, which) == 0 && left_of(&u, 1 - which))
            which = 1 - which;
        write_next(t, file, &u, which, written++ < ENOUGH ? most : MOST_ENTRY);
    }
}

/* Where an entry begins, of those in the file; where there is none, the file's end. */
static size_t some_entry(trial *t, const stream *file)
{
    size_t starts[64] = {file->length}, at = RECORDING_HEAD, count = 0;
    while (at + ENTRY_HEAD <= file->length && count < sizeof starts / sizeof *starts) {
        starts[count++] = at;
        at += ENTRY_HEAD + (size_t)file->bytes[at + 1] + 256u * file->bytes[at + 2];
    }
    return starts[once_in(t->c, 3) && count ? count - 1 : pick(t->c, (uint32_t)count)];
}

static void change_kind(trial *t, stream *file)
{
    static const uint8_t kinds[] = {0, 3, 255, 4, ENTRY_HOST, ENTRY_DEVICE};
    size_t entry = some_entry(t, file);
    if (entry < file->length)
        file->bytes[entry] = (uint8_t)(once_in(t->c, 3) ? pick(t->c, 256) : PICK_OF(t->c, kinds));
}

/* The length's low or high byte, changed by one or to any number. */
static void change_length(trial *t, stream *file)
{
    size_t entry = some_entry(t, file);
    if (entry + ENTRY_HEAD > file->length)
        return;
    uint8_t *length = file->bytes + entry + 1 + pick(t->c, 2);
    *length = (uint8_t)(once_in(t->c, 3) ? pick(t->c, 256) : *length + (pick(t->c, 2) ? 1u : 255u));
}

static void cut_file(trial *t, stream *file)
{
    size_t entry = some_entry(t, file);
    switch (pick(t->c, 4)) {
    case 0: drop_end(t, file); return;
    case 1: file->length = pick(t->c, 9) % (file->length + 1); return;
    case 2: file->length = entry < file->length ? entry + pick(t->c, ENTRY_HEAD) : file->length; return;
    default: file->length = some_place(t, file->length + 1); return;
    }
}

static void change_head(trial *t, stream *file)
{
    static const uint8_t others[] = {0, 1, 2, 'B', 'L', 'G', 'b', 255};
    if (file->length >= RECORDING_HEAD)
        file->bytes[pick(t->c, RECORDING_HEAD)] = PICK_OF(t->c, others);
}

static void spoil_file_once(trial *t, stream *file)
{
    switch (pick(t->c, 5)) {
    case 0: cut_file(t, file); break;
    case 1: change_head(t, file); break;
    case 2: change_kind(t, file); break;
    case 3: change_length(t, file); break;
    default: add_some(t, file); break;
    }
}

bool spoil_file(trial *t, stream *file)
{
    uint32_t times = once_in(t->c, 3) ? 1 + pick(t->c, 3) : 0;
    for (uint32_t i = 0; i < times; i++)
        spoil_file_once(t, file);
    return times > 0;
}

void write_start(trial *t, stream *file)
{
    static const uint8_t plain[] = {'B', 'L', 'G', 1, 0, ENTRY_HOST, 0, 0}, others[] = {0, 1, 2, 3, 'B', 'L', 'G', 255};
    uint32_t length = pick(t->c, sizeof plain + 1);
    for (uint32_t i = 0; i < length; i++)
        stream_add(file, once_in(t->c, 10) ? PICK_OF(t->c, others) : plain[i]);
}
