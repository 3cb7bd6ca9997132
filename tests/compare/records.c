#include "records.h"

#include "fill.h"
#include "streams.h"

#include <string.h>

static uint32_t places_of_host(uint32_t phase, const model_request *request)
{
    switch (phase) {
    case 0:
    case 1: return 4;
    case 3: return (uint32_t)request->length;
    case 12: return model_awaited(request);
    default: return 1;
    }
}

uint32_t places_of(const uint32_t record[WORDS], const model_request *request)
{
    bool uartboot = record[WORD_KIND] == KIND_UARTBOOT;
    uint32_t phase = record[WORD_PHASE];
    if (record[WORD_KIND] == KIND_HOST)
        return places_of_host(phase, request);
    if (uartboot && phase == 0)
        return 4;
    bool many = uartboot ? phase == 6 || phase == 14 : phase == 7;
    return many ? record[WORD_LENGTH] : 1;
}

uint32_t last_phase_of(uint32_t kind)
{
    return kind == KIND_HOST ? 17 : kind == KIND_UARTBOOT ? 19 : 11;
}

bool is_over(const uint32_t record[WORDS])
{
    return record[WORD_PHASE] == last_phase_of(record[WORD_KIND]);
}

static uint32_t any_number(trial *t, const model_memories *m)
{
    uint64_t edges[] = {0,     7,          m->work_length, m->ram_length,           256,
                        65536, 0xFFFFFFFF, RAM_BASE,       RAM_BASE + m->ram_length};
    if (once_in(t->c, 2))
        return pick(t->c, 24);
    return (uint32_t)near_edges(t->c, edges, sizeof edges / sizeof *edges);
}

/* One that the phase has; or one of the first, or at its end; or any. */
static uint32_t draw_place(trial *t, const setting *s)
{
    uint32_t places = places_of(s->record, &s->request), edges[] = {0, 1, places - 1, places, places + 1},
             how = pick(t->c, 6);
    if (how < 3)
        return pick(t->c, places < 24 || once_in(t->c, 2) ? places : 24);
    return how < 5 ? PICK_OF(t->c, edges) : any_number(t, &s->contents);
}

/* A command, with its payload: sometimes one with a count that is refused, one as long as the work buffer or longer, or
   another command's. */
static void draw_command(trial *t, setting *s)
{
    static planned p;
    uint64_t most = s->contents.work_length, ends[] = {most, most + 1};
    plan_command(t, &p, &s->contents);
    uint32_t how = pick(t->c, 16);
    if (how == 12 || how == 13)
        plan_bad_count(t, &p, &s->contents);
    if ((how == 10 || how == 11 || how == 14) && model_has_length(p.opcode, most))
        p.length = (uint32_t)PICK_OF(t->c, ends);
    s->record[WORD_OPCODE] = how == 15 ? model_opcode(pick(t->c, model_opcodes())) : p.opcode;
    s->record[WORD_LENGTH] = p.length;
    if (p.length <= s->contents.work_length)
        memcpy(s->contents.work, p.payload, p.length);
}

/* The length of an answer or a code: 1 to 24, or at the ends of what it may have. */
static void draw_length(trial *t, setting *s, uint64_t most)
{
    uint64_t edges[] = {1, most, 7, 256}, ends[] = {most, 0, most + 1};
    uint32_t how = pick(t->c, 6);
    uint64_t length = how < 3   ? 1 + pick(t->c, 24)
                      : how < 5 ? PICK_OF(t->c, ends)
                                : near_edges(t->c, edges, sizeof edges / sizeof *edges);
    s->record[WORD_LENGTH] = (uint32_t)length;
}

/* An answer, which may be longer than the memory that it came from. */
static void draw_answer(trial *t, setting *s)
{
    static const uint8_t answering[] = {OP_READ, OP_READ_QSPI, OP_VERSION};
    s->record[WORD_OPCODE] = PICK_OF(t->c, answering);
    draw_length(t, s, s->contents.work_length);
}

/* Often Run; else any command, a number that only ends in Run's byte, or what was drawn. */
static void draw_run(trial *t, setting *s)
{
    static const uint32_t nearly[] = {0x105, 0x10005, 0x80000005};
    uint32_t how = pick(t->c, 8);
    if (how < 4)
        s->record[WORD_OPCODE] = OP_RUN;
    else if (how < 7)
        s->record[WORD_OPCODE] = how < 6 ? model_opcode(pick(t->c, model_opcodes())) : PICK_OF(t->c, nearly);
}

/* Often in RAM; else at its ends, beside them, near 2^32, or what was drawn. */
static void draw_address(trial *t, setting *s)
{
    uint32_t length = (uint32_t)s->contents.ram_length, end = RAM_BASE + length, how = pick(t->c, 4);
    uint32_t edges[] = {RAM_BASE, end - 1, RAM_BASE - 1, end, 0, 0xFFFFFFFF, 0xFFFFFFFF - pick(t->c, 32)};
    if (how < 1)
        s->record[WORD_HELD] = RAM_BASE + pick(t->c, length);
    else if (how < 3)
        s->record[WORD_HELD] = PICK_OF(t->c, edges);
}

/* A host's low byte of the payload's CRC, or of the answer's length: the right one, all of the number, or what makes
   it up with a high byte past 2^32. */
static void draw_low_byte(trial *t, setting *s)
{
    const model_request *q = &s->request;
    if (model_judge_request(q))
        return;
    uint32_t number = s->record[WORD_PHASE] == 6 ? model_crc16(q->payload, q->length) : model_awaited(q);
    uint32_t helds[] = {number % 256, number, number - 256 * pick(t->c, 256)};
    s->record[WORD_HELD] = PICK_OF(t->c, helds);
}

/* Opcode, length and held as the phase has them, mostly. */
static void draw_step(trial *t, setting *s)
{
    bool uartboot = s->kind == KIND_UARTBOOT;
    uint32_t phase = s->record[WORD_PHASE];
    if (s->kind == KIND_HOST) {
        draw_low_byte(t, s);
    } else if (phase == last_phase_of(s->kind)) {
        draw_run(t, s);
        draw_address(t, s);
    } else if (!uartboot) {
        draw_length(t, s, s->contents.ram_length);
    } else if (phase > 10 && !once_in(t->c, 4)) {
        draw_answer(t, s);
    } else {
        draw_command(t, s);
    }
}

/* Mostly one that the kind has, sometimes the one after them. */
static uint32_t draw_phase(trial *t, const setting *s)
{
    uint32_t last = last_phase_of(s->kind);
    if (once_in(t->c, 20))
        return any_number(t, &s->contents);
    return once_in(t->c, 10) ? last : pick(t->c, last + 2);
}

void draw_record(trial *t, setting *s)
{
    uint32_t *r = s->record;
    const model_memories *m = &s->contents;
    r[WORD_KIND] = once_in(t->c, 20) ? any_number(t, m) : s->kind;
    r[WORD_PHASE] = draw_phase(t, s);
    r[WORD_OPCODE] = any_number(t, m);
    r[WORD_LENGTH] = any_number(t, m);
    r[WORD_HELD] = once_in(t->c, 2) ? pick(t->c, 256) : any_number(t, m);
    r[WORD_REASON] = any_number(t, m);
    r[WORD_SPARE] = any_number(t, m);
    if (!once_in(t->c, 5))
        draw_step(t, s);
    r[WORD_PLACE] = draw_place(t, s);
}

bool is_accepted(const setting *s)
{
    uint32_t record[WORDS];
    model_line nothing = {0};
    memcpy(record, s->record, sizeof record);
    return call_model(s->kind, record, &nothing, &s->request, &s->contents).number == 0;
}
