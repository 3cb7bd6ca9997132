#include "met_ranges.h"

/* `first` counts from the memory's first byte on, whose address is `base`. */
typedef struct {
    int64_t first, count, length, base;
} range;

static bool begins_inside(range r)
{
    return r.first >= 0 && r.first < r.length;
}

static bool wraps(range r)
{
    return r.base + r.first + r.count > 0xFFFFFFFF;
}

static seen_lies lies(range r)
{
    if (!begins_inside(r))
        return LIES_OUTSIDE;
    return r.first + r.count > r.length ? LIES_PAST_END : LIES_INSIDE;
}

/* The lists of a memory begin with ranges from its first byte on. */
static void meet_range(meeting *met, seen_what lists, uint32_t opcode, range r)
{
    bool inside = begins_inside(r);
    int64_t past = r.first + r.count - r.length;
    const bool is[] = {r.first == 0,        r.first == r.length - 1, r.first == r.length,
                       inside && past == 0, inside && past == 1,     wraps(r)};
    for (unsigned i = 0; i < sizeof is / sizeof *is; i++)
        if (is[i])
            note(met, lists + i, opcode);
}

void meet_ranges(meeting *met, const desk *d)
{
    const model_memories *m = &d->model;
    uint32_t opcode = met->before[WORD_OPCODE];
    model_command said = model_read_command(opcode, m->work, met->before[WORD_LENGTH]);
    int64_t count = opcode == OP_RUN ? 1 : (int64_t)said.count;
    range ram = {(int64_t)said.address - RAM_BASE, count, (int64_t)m->ram_length, RAM_BASE};
    range flash = {said.offset, count, (int64_t)m->flash_length, 0};
    if (count == 0)
        return;
    bool in_ram = opcode == OP_WRITE || opcode == OP_READ || opcode == OP_COPY || opcode == OP_RUN;
    if (in_ram)
        meet_range(met, SEEN_RAM_FIRST, opcode, ram);
    if (in_ram && ram.first == -1)
        note(met, SEEN_RAM_BEFORE, opcode);
    if (!in_ram || opcode == OP_COPY)
        meet_range(met, SEEN_FLASH_FIRST, opcode, flash);
    if (!in_ram && begins_inside(flash) && wraps(flash))
        note(met, SEEN_FLASH_INSIDE_WRAPS, opcode);
    if (opcode == OP_COPY)
        note(met, SEEN_COPY_RANGES, LIES * lies(ram) + lies(flash));
    if (model_has_answer(opcode) && count == (int64_t)m->work_length)
        note(met, SEEN_ANSWER_FILLS, opcode);
}
