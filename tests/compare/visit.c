#include "visit.h"

#include "records.h"

#include <stdlib.h>
#include <string.h>

/* Enough for the longest answer, and what is sent around it. */
enum { AMPLE = 70000 };

/* How a session ended, or must end. */
typedef struct {
    uint8_t *replies;
    size_t capacity, taken, sent;
    uint32_t record[WORDS];
    bool has_record, over;
    uint32_t reason, address;
} ending;

/* The most that a call is shown and the most room that it has; 0 in `piece` means all. */
typedef struct {
    const char *name;
    size_t piece, room;
    bool random;
} cut;

static void append(ending *e, const uint8_t *bytes, size_t count)
{
    if (e->sent + count > e->capacity) {
        e->capacity = (e->sent + count) * 2;
        e->replies = realloc(e->replies, e->capacity);
        if (!e->replies)
            abort();
    }
    if (count)
        memcpy(e->replies + e->sent, bytes, count);
    e->sent += count;
}

/* The record's kind; an answer buffer that is one byte short, where there is an answer; or the opcode, which is then
   unknown, or has no payload of this length. */
static void spoil_host(trial *t, desk *d, uint32_t what)
{
    static const uint32_t strange[] = {0x00, 0x06, 0x13, 0x105, 0x80000001};
    uint32_t awaited = model_judge_request(&d->request) ? 0 : model_awaited(&d->request);
    uint32_t other = d->request.length ? OP_VERSION : OP_WRITE;
    if (what == 0)
        d->record[WORD_KIND] = d->model_record[WORD_KIND] = pick(t->c, KIND_HOST);
    else if (what == 1 && awaited)
        d->library.work_length = d->model.work_length = awaited - 1;
    else
        d->library_request.opcode = d->request.opcode = once_in(t->c, 2) ? other : PICK_OF(t->c, strange);
}

static void spoil_length(desk *d, uint32_t what)
{
    if (what == 0)
        d->library.ram_length = d->model.ram_length = 0;
    else if (what == 1)
        d->library.flash_length = d->model.flash_length /= 4097;
    else
        d->library.work_length = d->model.work_length %= LEAST_WORK;
}

static void spoil_call(trial *t, desk *d)
{
    uint32_t places = places_of(d->model_record, &d->request), what = pick(t->c, d->kind > KIND_E ? 5 : 3);
    if (what == 0)
        d->record[WORD_PHASE] = d->model_record[WORD_PHASE] = 200 + pick(t->c, 9);
    else if (what == 1)
        d->record[WORD_PLACE] = d->model_record[WORD_PLACE] = places + pick(t->c, 3);
    else if (d->kind == KIND_HOST)
        spoil_host(t, d, what - 2);
    else
        spoil_length(d, what - 2);
}

void refused_call(trial *t, desk *d, const uint8_t *input, size_t left)
{
    desk before = *d;
    uint32_t record[WORDS];
    const uint8_t *reply;
    memcpy(record, d->record, sizeof record);
    spoil_call(t, d);
    model_report got = desk_call(t, d, input, left < 9 ? left : 9, 9, &reply);
    if (got.number == 0)
        differ(t, "a call that must be refused was accepted");
    *d = before;
    memcpy(d->record, record, sizeof record);
}

/* How many calls there may be, so that comparing whole memories after each stays cheap. */
static size_t most_calls(const visit *v)
{
    const model_memories *m = &v->start.contents;
    size_t lent = m->ram_length + m->flash_length + m->work_length + v->start.request.length;
    size_t calls = (24u << 20) / (lent + 1024);
    return calls < 12 ? 12 : calls;
}

static void next_call(trial *t, const cut *how, bool hurry, size_t left, size_t *shown, size_t *room)
{
    size_t piece = how->piece == 0 || hurry ? left : how->piece, space = hurry ? AMPLE : how->room;
    if (piece > left)
        piece = left;
    *shown = how->random && !hurry ? pick(t->c, (uint32_t)piece + 1) : piece;
    *room = how->random && !hurry ? pick(t->c, (uint32_t)space + 1) : space;
}

static void run_cut(trial *t, const visit *v, desk *d, const cut *how, ending *e)
{
    size_t calls = 0, most = most_calls(v), shown, room;
    bool over = false, refusals = once_in(t->c, 4);
    tell(t, "cut: %s\n", how->name);
    while (!over && !differs(t)) {
        const uint8_t *next = v->stream + e->taken, *reply;
        size_t left = v->length - e->taken;
        if (refusals && once_in(t->c, 6))
            refused_call(t, d, next, left);
        alter(t, d, v->alters);
        next_call(t, how, calls++ >= most, left, &shown, &room);
        model_report got = desk_call(t, d, next, shown, room, &reply);
        append(e, reply, got.sent);
        e->taken += got.taken;
        over = got.number != 0 || got.standing == RUNS || (got.standing == WANTS_BYTE && e->taken == v->length);
    }
    memcpy(e->record, d->record, sizeof e->record);
    e->over = is_over(e->record);
    e->reason = e->record[WORD_REASON];
    e->address = e->over ? e->record[WORD_HELD] : 0;
    e->has_record = true;
}

static void same_ending(trial *t, const ending *got, const desk *d, const ending *want, const model_memories *memories)
{
    same_number(t, "all taken", got->taken, want->taken);
    same_number(t, "all sent", got->sent, want->sent);
    same_number(t, "last reason", got->reason, want->reason);
    same_number(t, "over", got->over, want->over);
    same_number(t, "address at which code runs", got->address, want->address);
    if (!differs(t))
        same_bytes(t, "joined replies", got->replies, want->replies, want->sent);
    for (int word = 0; word < WORDS && want->has_record; word++)
        same_number(t, "word of the last record", got->record[word], want->record[word]);
    same_bytes(t, "RAM at the end", d->library.ram, memories->ram, memories->ram_length);
    same_bytes(t, "flash at the end", d->library.flash, memories->flash, memories->flash_length);
    same_bytes(t, "work at the end", d->library.work, memories->work, memories->work_length);
}

/* What the whole stream gives: from a fresh session by the model that reads it at once. */
static void expect(const visit *v, ending *e, model_memories *memories)
{
    copy_contents(memories, &v->start.contents);
    model_ending whole = v->start.kind == KIND_HOST
                             ? model_uncut_host(&v->start.request, v->stream, v->length, memories)
                             : model_uncut(v->start.kind, v->stream, v->length, memories);
    e->replies = whole.replies;
    e->capacity = e->sent = whole.sent;
    e->taken = whole.taken;
    e->reason = whole.reason;
    e->over = whole.over;
    e->address = whole.address;
}

static cut next_cut(trial *t, uint32_t round)
{
    static const uint32_t sizes[] = {1, 2, 3, 5, 9, 64, 300, 5000};
    static const cut fixed[] = {
        {"whole", 0, AMPLE, false}, {"byte by byte", 1, 1, false}, {"one byte of room", 0, 1, false}};
    if (round < 2 || (round == 3 && once_in(t->c, 2)))
        return fixed[round < 2 ? round : 2];
    size_t piece = PICK_OF(t->c, sizes), room = PICK_OF(t->c, sizes);
    return (cut){"at random", piece, room, true};
}

void visit_run(trial *t, const visit *v)
{
    const model_memories *m = &v->start.contents;
    tell(t, "kind %u, RAM %zu, flash %zu, work %zu\n", v->start.kind, m->ram_length, m->flash_length, m->work_length);
    tell_bytes(t, "stream", v->stream, v->length);
    model_memories expected = contents_of(EXPECTED_CONTENTS, 0, 0, 0);
    ending want = {0};
    bool known = v->start.fresh && !v->alters && is_accepted(&v->start);
    if (known)
        expect(v, &want, &expected);
    uint32_t rounds = 3 + pick(t->c, 3);
    for (uint32_t round = 0; round < rounds && !differs(t); round++) {
        cut how = next_cut(t, round);
        desk d;
        ending got = {0};
        desk_set(t, &d, &v->start);
        run_cut(t, v, &d, &how, &got);
        if (known)
            same_ending(t, &got, &d, &want, &expected);
        bool first_end = round == 0 && !v->alters;
        if (first_end && !want.has_record) {
            memcpy(want.record, got.record, sizeof want.record);
            want.has_record = true;
        }
        if (first_end && !known && !differs(t)) {
            free(want.replies);
            want = got;
            got.replies = NULL;
            copy_contents(&expected, &d.library);
            known = true;
        }
        free(got.replies);
    }
    free(want.replies);
}
