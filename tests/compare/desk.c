#include "desk.h"

#include "lend.h"
#include "met.h"
#include "undalisho.h"

#include <stdlib.h>
#include <string.h>

/* A little longer than the longest that are accepted. */
enum {
    RAM_SHELF = MOST_RAM + 64,
    FLASH_SHELF = MOST_FLASH + 2 * SECTOR,
    WORK_SHELF = MOST_WORK + 64,
    LINE_SHELF = 1 << 20
};

enum { RECORD, INPUT, REPLY, RAM, FLASH, WORK, PAYLOAD, SHELVES };

static const size_t capacities[SHELVES] = {
    [RECORD] = sizeof(uint32_t[WORDS]),
    [INPUT] = LINE_SHELF,
    [REPLY] = LINE_SHELF,
    [RAM] = RAM_SHELF,
    [FLASH] = FLASH_SHELF,
    [WORK] = WORK_SHELF,
    [PAYLOAD] = WORK_SHELF,
};

/* What is lent to the library, and what the model has in its place: one for sessions, one for hosts. */
typedef struct {
    shelf shelves[SHELVES];
    uint8_t *reply, *payload;
    model_memories memories;
} stand;

static void *new_bytes(size_t count)
{
    void *bytes = malloc(count);
    if (!bytes)
        abort();
    return bytes;
}

static model_memories new_memories(void)
{
    return (model_memories){new_bytes(RAM_SHELF), new_bytes(FLASH_SHELF), new_bytes(WORK_SHELF), 0, 0, 0};
}

static stand *stand_of(uint32_t kind)
{
    static stand all[2];
    stand *its = &all[kind == KIND_HOST];
    if (its->reply)
        return its;
    for (int i = 0; i < SHELVES; i++)
        shelf_build(&its->shelves[i], capacities[i]);
    its->memories = new_memories();
    its->payload = new_bytes(WORK_SHELF);
    its->reply = new_bytes(LINE_SHELF);
    return its;
}

model_memories contents_of(int use, size_t ram_length, size_t flash_length, size_t work_length)
{
    static model_memories all[CONTENTS];
    if (!all[use].ram)
        all[use] = new_memories();
    model_memories m = all[use];
    m.ram_length = ram_length;
    m.flash_length = flash_length;
    m.work_length = work_length;
    return m;
}

void copy_contents(model_memories *to, const model_memories *from)
{
    to->ram_length = from->ram_length;
    to->flash_length = from->flash_length;
    to->work_length = from->work_length;
    memcpy(to->ram, from->ram, from->ram_length);
    memcpy(to->flash, from->flash, from->flash_length);
    memcpy(to->work, from->work, from->work_length);
}

static void copy_request(model_request *to, const model_request *from)
{
    to->opcode = from->opcode;
    to->length = from->length;
    if (from->length)
        memcpy(to->payload, from->payload, from->length);
}

void desk_set(trial *t, desk *d, const setting *s)
{
    stand *its = stand_of(s->kind);
    d->kind = s->kind;
    d->fresh = s->fresh;
    d->at_end = !once_in(t->c, 3);
    d->null_if_empty = once_in(t->c, 2);
    d->library.ram = shelf_lend(&its->shelves[RAM], s->contents.ram_length, d->at_end);
    d->library.flash = shelf_lend(&its->shelves[FLASH], s->contents.flash_length, d->at_end);
    d->library.work = shelf_lend(&its->shelves[WORK], s->contents.work_length, d->at_end);
    d->library_request.payload = shelf_lend(&its->shelves[PAYLOAD], s->request.length, d->at_end);
    d->model = its->memories;
    d->request.payload = its->payload;
    copy_contents(&d->library, &s->contents);
    copy_contents(&d->model, &s->contents);
    copy_request(&d->library_request, &s->request);
    copy_request(&d->request, &s->request);
    d->record = (uint32_t *)(void *)shelf_lend(&its->shelves[RECORD], sizeof s->record, d->at_end);
    memcpy(d->record, s->record, sizeof s->record);
    memcpy(d->model_record, s->record, sizeof s->record);
}

uint8_t *lent_or_null(const desk *d, uint8_t *bytes, size_t length)
{
    return length == 0 && d->null_if_empty ? NULL : bytes;
}

static und_report call_library(desk *d, uint8_t *input, size_t shown, uint8_t *reply, size_t room)
{
    model_memories *m = &d->library;
    model_request *q = &d->library_request;
    if (d->kind == KIND_HOST)
        return und_host_call(d->record, q->opcode, lent_or_null(d, q->payload, q->length), q->length,
                             lent_or_null(d, input, shown), shown, lent_or_null(d, reply, room), room,
                             lent_or_null(d, m->work, m->work_length), m->work_length);
    if (d->kind != KIND_UARTBOOT)
        return und_rom_call(d->record, lent_or_null(d, input, shown), shown, lent_or_null(d, reply, room), room,
                            lent_or_null(d, m->ram, m->ram_length), m->ram_length);
    return und_uartboot_call(d->record, lent_or_null(d, input, shown), shown, lent_or_null(d, reply, room), room,
                             lent_or_null(d, m->ram, m->ram_length), m->ram_length,
                             lent_or_null(d, m->flash, m->flash_length), m->flash_length,
                             lent_or_null(d, m->work, m->work_length), m->work_length);
}

model_report call_model(uint32_t kind, uint32_t record[WORDS], model_line *line, const model_request *request,
                        const model_memories *memories)
{
    if (kind == KIND_HOST)
        return model_host_call(record, line, request, memories);
    return kind == KIND_UARTBOOT ? model_uartboot_call(record, line, memories) : model_rom_call(record, line, memories);
}

static void same_record(trial *t, const desk *d)
{
    static const char *const names[WORDS] = {"kind", "phase", "opcode", "length", "place", "held", "reason", "spare"};
    for (int word = 0; word < WORDS; word++)
        same_number(t, names[word], d->record[word], d->model_record[word]);
}

void same_memories(trial *t, const desk *d)
{
    const stand *its = stand_of(d->kind);
    same_bytes(t, "RAM", d->library.ram, d->model.ram, d->model.ram_length);
    same_bytes(t, "flash", d->library.flash, d->model.flash, d->model.flash_length);
    same_bytes(t, d->kind == KIND_HOST ? "answer buffer" : "work", d->library.work, d->model.work,
               d->model.work_length);
    same_bytes(t, "payload", d->library_request.payload, d->request.payload, d->request.length);
    for (int i = 0; i < SHELVES; i++)
        if (!shelf_intact(&its->shelves[i]))
            differ(t, "a byte beside lent memory was written");
}

/* Fills room before a call with bytes that the call would not write at every place by chance. */
static void mark_room(uint8_t *library, uint8_t *model, size_t room, uint64_t salt)
{
    for (size_t i = 0; i < room; i++)
        library[i] = model[i] = (uint8_t)(salt + i * 37);
}

model_report desk_call(trial *t, desk *d, const uint8_t *input, size_t shown, size_t room, const uint8_t **reply)
{
    stand *its = stand_of(d->kind);
    uint8_t *piece = shelf_lend(&its->shelves[INPUT], shown, d->at_end);
    uint8_t *space = shelf_lend(&its->shelves[REPLY], room, d->at_end);
    if (shown)
        memcpy(piece, input, shown);
    mark_room(space, its->reply, room, t->calls++);
    meeting met = meeting_before(d, input, shown, room);
    und_report got = call_library(d, piece, shown, space, room);

    model_line line = {input, shown, 0, its->reply, room, 0};
    model_report want = call_model(d->kind, d->model_record, &line, &d->request, &d->model);
    tell(t, "call: shown %zu, room %zu: number %u, standing %u, taken %zu, sent %zu, phase %u, reason %u\n", shown,
         room, want.number, want.standing, want.taken, want.sent, d->model_record[WORD_PHASE],
         d->model_record[WORD_REASON]);
    meeting_after(&met, d, &want);
    same_number(t, "number", got.number, want.number);
    same_number(t, "standing", got.standing, want.standing);
    same_number(t, "taken", got.taken, want.taken);
    same_number(t, "sent", got.sent, want.sent);
    same_bytes(t, "reply", space, its->reply, room);
    if (shown)
        same_bytes(t, "input", piece, input, shown);
    same_record(t, d);
    same_memories(t, d);
    *reply = space;
    return (model_report){got.number, got.standing, got.taken, got.sent};
}
