/* Cases of recorded visits. */
#include "entries.h"
#include "fill.h"
#include "met_recording.h"
#include "records.h"
#include "sessions.h"
#include "streams.h"

#include <stdlib.h>

/* Memories that admit the longest payloads and answers. */
static model_memories long_memories(trial *t)
{
    model_memories m = contents_of(FIRST_CONTENTS, MOST_RAM, 17 * SECTOR, MOST_WORK);
    fill_memories(t, &m);
    return m;
}

/* A command that stores or answers many bytes, as many as there are or near to where room for replies might end. */
static void play_long(lead *g)
{
    static const uint8_t opcodes[] = {OP_READ, OP_READ_QSPI, OP_READ, OP_WRITE, OP_DIRECT_WRITE};
    static const uint64_t counts[] = {65535, 1024, 4096, 65535, 256, 512, 2048, 65535, 8192, 16384, 32768};
    static planned p;
    trial *t = g->t;
    uint64_t count = near_edges(t->c, counts, sizeof counts / sizeof *counts);
    p.opcode = PICK_OF(t->c, opcodes);
    put_command(&p, RAM_BASE, 0, count, 0);
    if (takes_data(p.opcode)) {
        uint32_t most = MOST_WORK - p.length, data = count < most ? (uint32_t)count : most;
        fill(t->c, p.payload + p.length, data);
        p.length += data;
    }
    play_planned(g, &p);
    play_uartboot(t, g->s, g->record, g->memories, 0);
}

/* What a host sends to a session from its first byte on. */
static void make_host(trial *t, const setting *s, stream *host, bool is_long)
{
    model_memories follows = contents_of(LEAD_CONTENTS, 0, 0, 0);
    uint32_t record[WORDS], commands = pick(t->c, 9);
    lead g = {t, host, record, NULL, &follows};
    copy_contents(&follows, &s->contents);
    model_fresh(KIND_UARTBOOT, record);
    if (is_long)
        play_uartboot(t, host, record, &follows, 0);
    for (uint32_t left = is_long ? 1 + pick(t->c, 2) : 0; left > 0 && record[WORD_PHASE] == 1; left--)
        play_long(&g);
    play_uartboot(t, host, record, &follows, commands);
    if (is_over(record) && once_in(t->c, 2))
        play_all(&g, (const uint8_t *)"\x01\x0C\x00\x00\x01\x0B", 1 + pick(t->c, 6));
    if (once_in(t->c, 4))
        spoil(t, host);
}

/* A visit to the library's session. Its memories are then in `after`. */
static void make_visit(trial *t, const setting *s, spoken *v, bool is_long, model_memories *after)
{
    model_memories uncut = contents_of(LEAD_CONTENTS, 0, 0, 0);
    make_host(t, s, &v->host, is_long);
    copy_contents(&uncut, &s->contents);
    model_ending whole = model_uncut(KIND_UARTBOOT, v->host.bytes, v->host.length, &uncut);
    play_session(t, s, v->host.bytes, v->host.length, whole.sent, &v->device, after);
    free(whole.replies);
}

/* What is lent, and what the recording is made of. */
typedef struct {
    setting start;
    spoken visit;
    stream file;
    model_memories after; /* what the session left */
    bool whole;           /* nothing was changed in what the session took and sent */
} recorded;

static void draw_visit(trial *t, recorded *r)
{
    static const uint8_t unheard[] = {0x01, OP_CHIP_ERASE, 0, 0};
    bool any = once_in(t->c, 8), is_long = !any && once_in(t->c, 12);
    setting *s = &r->start;
    s->contents = any       ? refused_memories(t, KIND_UARTBOOT)
                  : is_long ? long_memories(t)
                            : first_memories(t, KIND_UARTBOOT);
    r->whole = is_accepted(s);
    if (r->whole)
        make_visit(t, s, &r->visit, is_long, &r->after);
    else
        stream_add_all(&r->visit.host, unheard, sizeof unheard);
}

static void draw_file(trial *t, recorded *r)
{
    if (once_in(t->c, 16)) {
        write_start(t, &r->file);
        r->whole = false;
        return;
    }
    if (spoil_spoken(t, &r->visit))
        r->whole = false;
    write_recording(t, &r->file, &r->visit);
    if (spoil_file(t, &r->file))
        r->whole = false;
}

void recording_case(trial *t)
{
    recorded r = {.start = {.kind = KIND_UARTBOOT, .fresh = true}};
    desk d;
    r.after = contents_of(EXPECTED_CONTENTS, 0, 0, 0);
    fresh_record(t, KIND_UARTBOOT, r.start.record);
    draw_visit(t, &r);
    draw_file(t, &r);
    desk_set(t, &d, &r.start);
    model_replayed got = replay_on(t, &d, r.file.bytes, r.file.length);
    if (!differs(t))
        met_recording(&r.start, &d, &r.file, &got);
    if (r.whole && (got.equal != 1 || !has_contents(&d, &r.after)))
        differ(t, "the session's own recording is not equal, or leaves other memories");
    free(r.visit.host.bytes);
    free(r.visit.device.bytes);
    free(r.file.bytes);
}
