#include "requests.h"

#include "fill.h"
#include "seen.h"
#include "streams.h"

/* The count of a Read: 0 to 24, or one whose low byte is 15, or one with a high byte. */
static uint32_t draw_count(trial *t)
{
    static const uint32_t edges[] = {0x15, 0, 0x115, 0, 256, 257, 0x1500};
    if (once_in(t->c, 60))
        return 65535;
    return once_in(t->c, 3) ? PICK_OF(t->c, edges) : pick(t->c, 25);
}

/* Data after the numbers of a payload: few, or up to the longest payload, or one more than that. */
static uint32_t draw_data(trial *t, uint32_t numbers)
{
    if (!once_in(t->c, 40))
        return 1 + pick(t->c, once_in(t->c, 6) ? 300 : 12);
    return 65535 - numbers + pick(t->c, 2);
}

/* A length that is mostly another command's, or that ends in the right two bytes. */
static uint32_t other_length(trial *t, uint32_t right)
{
    uint32_t others[] = {right - 1, right + 1, 0, 65536, 65536 + right};
    uint32_t length = once_in(t->c, 2) ? pick(t->c, 12) : PICK_OF(t->c, others);
    return length > 65536 + 10 ? 1 : length;
}

static uint32_t other_opcode(trial *t, uint32_t opcode)
{
    return once_in(t->c, 2) ? opcode + (1u << (8 + pick(t->c, 24))) : pick(t->c, 256);
}

static size_t answer_length(trial *t, const model_request *q)
{
    bool reads = model_has_answer(q->opcode) && !model_judge_request(q);
    uint32_t awaited = reads ? model_awaited(q) : pick(t->c, 10);
    switch (pick(t->c, 8)) {
    case 0:
    case 1:
    case 2: return awaited;
    case 3: return awaited + 1;
    case 7: return awaited ? awaited - 1 : 0;
    default: return awaited + pick(t->c, 30);
    }
}

/* Each of the table, and those that read more often. */
static uint8_t draw_opcode(trial *t)
{
    static const uint8_t reading[] = {OP_READ, OP_READ_QSPI};
    return once_in(t->c, 4) ? PICK_OF(t->c, reading) : model_opcode(pick(t->c, model_opcodes()));
}

void draw_request(trial *t, setting *s)
{
    static planned p;
    p.opcode = draw_opcode(t);
    put_command(&p, pick(t->c, 1u << 31), pick(t->c, 1u << 31), draw_count(t), pick(t->c, 256));
    if (takes_data(p.opcode)) {
        uint32_t data = draw_data(t, p.length);
        fill(t->c, p.payload + p.length, data);
        p.length += data;
    }
    if (once_in(t->c, 24))
        p.length = other_length(t, p.length);
    s->request = (model_request){p.opcode, p.payload, p.length};
    if (once_in(t->c, 32))
        s->request.opcode = other_opcode(t, p.opcode);
    s->contents = contents_of(FIRST_CONTENTS, 0, 0, answer_length(t, &s->request));
    fill(t->c, s->contents.work, s->contents.work_length);
    tell(t, "opcode %u\n", s->request.opcode);
    tell_bytes(t, "payload", p.payload, p.length);
}

static void note_length(const model_request *q)
{
    if (q->length == 65535)
        seen(SEEN_REQUEST_MOST, q->opcode);
    else if (q->length == 65536)
        seen(SEEN_REQUEST_ABOVE, q->opcode);
    if (!model_has_length(q->opcode, q->length))
        seen(SEEN_REQUEST_OTHER, q->opcode);
}

static void note_answer_buffer(const model_request *q, size_t room)
{
    uint32_t awaited = model_awaited(q);
    if (!model_has_answer(q->opcode))
        return;
    if (room + 1 == awaited)
        seen(SEEN_BUFFER_SHORT, q->opcode);
    else if (room >= awaited)
        seen(room == awaited ? SEEN_BUFFER_EXACT : SEEN_BUFFER_LONGER, q->opcode);
}

/* Whether there are numbers enough to say that the buffer is too short, in a payload of whatever length. */
static bool is_short(const model_request *q, size_t room)
{
    bool counted = model_has_answer(q->opcode) && (q->opcode == OP_VERSION || q->length >= 6);
    return counted && room < model_awaited(q);
}

void note_request(const setting *s)
{
    const model_request *q = &s->request;
    bool bad = model_judge_request(q) != 0, is_too_short = is_short(q, s->contents.work_length);
    bool unsound = s->record[WORD_KIND] != KIND_HOST || s->record[WORD_PHASE] > 17;
    if (!model_known(q->opcode))
        seen(SEEN_REQUEST_STRANGE, q->opcode > 255);
    else
        note_length(q);
    if (!bad)
        note_answer_buffer(q, s->contents.work_length);
    if (bad && is_too_short)
        seen(SEEN_CAUSES, CAUSES_71_72);
    if (bad && unsound)
        seen(SEEN_CAUSES, CAUSES_71_4);
    if (!bad && is_too_short && unsound)
        seen(SEEN_CAUSES, CAUSES_72_4);
}
