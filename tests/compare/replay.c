#include "replay.h"

#include "lend.h"
#include "undalisho.h"

#include <string.h>

enum { LONGEST_FILE = 2 << 20 };

void write_head(stream *file)
{
    stream_add_all(file, (const uint8_t *)"BLG\x01\x00", RECORDING_HEAD);
}

void write_entry(stream *file, uint8_t kind, const uint8_t *bytes, size_t count)
{
    uint8_t head[ENTRY_HEAD] = {kind, (uint8_t)count, (uint8_t)(count >> 8)};
    stream_add_all(file, head, sizeof head);
    stream_add_all(file, bytes, count);
}

void write_entries(stream *file, uint8_t kind, const uint8_t *bytes, size_t count)
{
    for (; count > MOST_ENTRY; count -= MOST_ENTRY, bytes += MOST_ENTRY)
        write_entry(file, kind, bytes, MOST_ENTRY);
    write_entry(file, kind, bytes, count);
}

void play_session(trial *t, const setting *s, const uint8_t *host, size_t length, size_t replies, stream *device,
                  model_memories *after)
{
    const uint8_t *reply;
    desk d;
    desk_set(t, &d, s);
    model_report got = desk_call(t, &d, host, length, replies, &reply);
    if (got.number || got.sent != replies || got.standing == WANTS_ROOM)
        differ(t, "a session's call with room for %zu replies sends %zu", replies, got.sent);
    stream_add_all(device, reply, got.sent);
    copy_contents(after, &d.library);
}

bool has_contents(const desk *d, const model_memories *m)
{
    return memcmp(d->library.ram, m->ram, m->ram_length) == 0 &&
           memcmp(d->library.flash, m->flash, m->flash_length) == 0 &&
           memcmp(d->library.work, m->work, m->work_length) == 0;
}

static und_replayed call_library(const desk *d, uint8_t *file, size_t length)
{
    const model_memories *m = &d->library;
    return und_replay(lent_or_null(d, file, length), length, lent_or_null(d, m->ram, m->ram_length), m->ram_length,
                      lent_or_null(d, m->flash, m->flash_length), m->flash_length,
                      lent_or_null(d, m->work, m->work_length), m->work_length);
}

model_replayed replay_on(trial *t, desk *d, const uint8_t *file, size_t length)
{
    static shelf lent;
    if (!lent.first)
        shelf_build(&lent, LONGEST_FILE);
    uint8_t *copy = shelf_lend(&lent, length, d->at_end);
    if (length)
        memcpy(copy, file, length);
    und_replayed got = call_library(d, copy, length);
    model_replayed want = model_replay(file, length, &d->model);
    tell_bytes(t, "recording", file, length);
    tell(t, "replay: number %u, equal %u, place %zu\n", want.number, want.equal, want.place);
    same_number(t, "replay's number", got.number, want.number);
    same_number(t, "replay's equal", got.equal, want.equal);
    same_number(t, "replay's place", got.place, want.place);
    same_bytes(t, "lent recording", copy, file, length);
    same_memories(t, d);
    if (!shelf_intact(&lent))
        differ(t, "a byte beside the recording was written");
    t->calls++;
    return (model_replayed){got.number, got.equal, got.place};
}
