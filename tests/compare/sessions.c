/* Cases of sessions and hosts: streams from a fresh record, given records, refused lengths. */
#include "sessions.h"

#include "fill.h"
#include "records.h"
#include "requests.h"
#include "streams.h"
#include "undalisho.h"
#include "visit.h"

#include <stdlib.h>
#include <string.h>

static size_t ram_length(trial *t)
{
    static const uint32_t edges[] = {1, 2, 255, 256, 65535, 65536, 65537, 131071, 131072};
    return once_in(t->c, 16) ? PICK_OF(t->c, edges) : 1 + pick(t->c, 400);
}

static size_t flash_length(trial *t)
{
    static const uint32_t edges[] = {64, 1024, 32, 1023};
    return SECTOR * (size_t)(once_in(t->c, 150) ? PICK_OF(t->c, edges) : 1 + pick(t->c, 4));
}

static size_t work_length(trial *t)
{
    static const uint32_t edges[] = {64, 65, 255, 256, 257, 65534, 65535};
    return once_in(t->c, 8) ? PICK_OF(t->c, edges) : 64 + pick(t->c, 300);
}

void fill_memories(trial *t, const model_memories *m)
{
    fill(t->c, m->ram, m->ram_length);
    fill(t->c, m->flash, m->flash_length);
    fill(t->c, m->work, m->work_length);
}

model_memories first_memories(trial *t, uint32_t kind)
{
    size_t ram = ram_length(t), flash = 0, work = 0;
    if (kind == KIND_UARTBOOT) {
        flash = flash_length(t);
        work = work_length(t);
    }
    model_memories m = contents_of(FIRST_CONTENTS, ram, flash, work);
    fill_memories(t, &m);
    return m;
}

/* On words that held something else. A receiver's has any kind that is given. */
static void fresh(trial *t, uint32_t session, uint32_t kind, uint32_t record[WORDS])
{
    uint32_t want[WORDS];
    memset(record, 0xEE, sizeof want);
    model_fresh(kind, want);
    if (session == KIND_HOST)
        und_host_fresh(record);
    else if (session == KIND_UARTBOOT)
        und_uartboot_fresh(record);
    else
        und_rom_fresh(kind, record);
    if (memcmp(record, want, sizeof want) != 0)
        differ(t, "fresh record of kind %u", kind);
}

void fresh_record(trial *t, uint32_t kind, uint32_t record[WORDS])
{
    fresh(t, kind, kind, record);
}

static void set_stream(visit *v, const stream *s)
{
    static const uint8_t nothing[1];
    v->stream = s->length ? s->bytes : nothing;
    v->length = s->length;
}

/* Follows the session, or the host, from a visit's start. */
static void follow(trial *t, const visit *v, stream *s, uint32_t rounds)
{
    uint32_t record[WORDS];
    model_memories lead = contents_of(LEAD_CONTENTS, 0, 0, 0);
    copy_contents(&lead, &v->start.contents);
    memcpy(record, v->start.record, sizeof record);
    if (v->start.kind == KIND_HOST)
        play_host(t, s, record, &v->start.request, &lead);
    else if (v->start.kind == KIND_UARTBOOT)
        play_uartboot(t, s, record, &lead, rounds);
    else
        play_rom(t, s, record, &lead, rounds);
    spoil(t, s);
}

/* Where the start is refused, the stream has any bytes. */
static void make_stream(trial *t, visit *v, stream *s, uint32_t rounds)
{
    if (is_accepted(&v->start))
        follow(t, v, s, rounds);
    else
        for (uint32_t left = pick(t->c, 20); left > 0; left--)
            stream_add(s, (uint8_t)pick(t->c, 256));
    set_stream(v, s);
}

/* What is lent to a session, or to a host. */
static void draw_lent(trial *t, setting *s)
{
    if (s->kind == KIND_HOST)
        draw_request(t, s);
    else
        s->contents = first_memories(t, s->kind);
}

static void stream_case(trial *t, uint32_t kind, uint32_t most_rounds)
{
    stream s = {0};
    visit v = {.start.kind = kind, .start.fresh = true};
    draw_lent(t, &v.start);
    fresh_record(t, kind, v.start.record);
    if (kind == KIND_HOST)
        note_request(&v.start);
    v.alters = draw_alters(t, kind);
    make_stream(t, &v, &s, 1 + pick(t->c, most_rounds));
    visit_run(t, &v);
    free(s.bytes);
}

void rom_stream_case(trial *t)
{
    stream_case(t, pick(t->c, 2), 4);
}

void uartboot_stream_case(trial *t)
{
    stream_case(t, KIND_UARTBOOT, 8);
}

void host_stream_case(trial *t)
{
    stream_case(t, KIND_HOST, 1);
}

static void record_case(trial *t, uint32_t kind)
{
    stream s = {0};
    visit v = {.start.kind = kind};
    draw_lent(t, &v.start);
    draw_record(t, &v.start);
    note_record(&v.start);
    if (kind == KIND_HOST)
        note_request(&v.start);
    const uint32_t *r = v.start.record;
    tell(t, "record: %u %u %u %u %u %u %u %u\n", r[0], r[1], r[2], r[3], r[4], r[5], r[6], r[7]);
    v.alters = draw_alters(t, kind);
    make_stream(t, &v, &s, pick(t->c, 3));
    visit_run(t, &v);
    free(s.bytes);
}

void rom_record_case(trial *t)
{
    static const uint32_t strange[] = {2, 3, 255, 256, 65536, 0xFFFFFFFF};
    uint32_t record[WORDS];
    fresh(t, KIND_P, PICK_OF(t->c, strange), record);
    record_case(t, pick(t->c, 2));
}

void uartboot_record_case(trial *t)
{
    record_case(t, KIND_UARTBOOT);
}

void host_record_case(trial *t)
{
    record_case(t, KIND_HOST);
}

/* A length at or past its bounds, or any up to the last. */
static size_t some_length(trial *t, const uint32_t *edges, uint32_t count, uint32_t last)
{
    return once_in(t->c, 4) ? pick(t->c, last + 1) : edges[pick(t->c, count)];
}

model_memories refused_memories(trial *t, uint32_t kind)
{
    static const uint32_t rams[] = {1, 131072, 0, 131073};
    static const uint32_t works[] = {64, 65535, 63, 65536, 0, 1};
    static const uint32_t flashes[] = {4096, 8192, 0, 4095, 4097, 1, 12287};
    static const uint32_t large_flashes[] = {4194304, 4198400, 4194303};
    model_memories m = contents_of(FIRST_CONTENTS, some_length(t, rams, 4, MOST_RAM + 32), 0, 0);
    if (kind == KIND_UARTBOOT) {
        m.work_length = some_length(t, works, 6, MOST_WORK + 32);
        m.flash_length = once_in(t->c, 12) ? some_length(t, large_flashes, 3, MOST_FLASH + SECTOR)
                                           : some_length(t, flashes, 7, 3 * SECTOR);
    }
    fill_memories(t, &m);
    return m;
}

void length_case(trial *t)
{
    uint32_t kind = pick(t->c, 3);
    uint8_t input[12];
    visit v = {.start.kind = kind, .stream = input, .length = pick(t->c, sizeof input)};
    v.start.contents = refused_memories(t, kind);
    fill(t->c, input, sizeof input);
    model_fresh(kind, v.start.record);
    v.start.fresh = !once_in(t->c, 3);
    if (!v.start.fresh)
        v.start.record[WORD_PHASE] = pick(t->c, 24);
    visit_run(t, &v);
}
