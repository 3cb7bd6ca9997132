#include "alter.h"

#include "seen.h"
#include "streams.h"

#include <string.h>

/* The memories that a caller writes to; a payload is a host's. */
enum { RAM, WORK, FLASH, PAYLOAD };

/* How many bytes at the front of a host's payload or answer buffer it still relies on. */
static size_t host_relies_on(const desk *d, uint32_t which)
{
    uint32_t phase = d->model_record[WORD_PHASE];
    if (which == PAYLOAD)
        return phase >= 3 && phase <= 6 ? d->request.length : 0;
    if (phase == 12)
        return d->model_record[WORD_PLACE];
    return phase == 13 || phase == 14 ? model_awaited(&d->request) : 0;
}

/* How many bytes at the front of a memory the session, or the host, still relies on. */
static size_t relied_on(const desk *d, uint32_t which)
{
    const uint32_t *r = d->model_record;
    uint32_t phase = r[WORD_PHASE];
    if (d->kind == KIND_HOST)
        return host_relies_on(d, which);
    if (which != (d->kind == KIND_UARTBOOT ? WORK : RAM))
        return 0;
    if (phase == (which == WORK ? 6 : 7))
        return r[WORD_PLACE];
    return (which == WORK ? phase >= 7 && phase <= 16 : phase == 8) ? r[WORD_LENGTH] : 0;
}

static void note_altered(const desk *d, uint32_t which, size_t place)
{
    if (d->fresh && place < relied_on(d, which))
        seen(SEEN_ALTERED_P + d->kind, d->model_record[WORD_PHASE]);
}

static uint32_t which_memory(trial *t, uint32_t kind)
{
    if (kind == KIND_HOST)
        return pick(t->c, 2) ? PAYLOAD : WORK;
    return pick(t->c, kind == KIND_UARTBOOT ? 3 : 1);
}

static void alter_byte(trial *t, desk *d)
{
    uint32_t which = which_memory(t, d->kind);
    uint8_t *const library[] = {d->library.ram, d->library.work, d->library.flash, d->library_request.payload};
    uint8_t *const model[] = {d->model.ram, d->model.work, d->model.flash, d->request.payload};
    const size_t lengths[] = {d->model.ram_length, d->model.work_length, d->model.flash_length, d->request.length};
    size_t length = lengths[which];
    if (length == 0)
        return;
    size_t place = pick(t->c, once_in(t->c, 3) ? (uint32_t)length : length < 16 ? (uint32_t)length : 16);
    uint8_t byte = (uint8_t)pick(t->c, 256);
    if (model[which][place] != byte)
        note_altered(d, which, place);
    library[which][place] = model[which][place] = byte;
    tell(t, "altered: memory %u, byte %zu is %02X\n", which, place, byte);
}

/* Another payload of the same command, in place of the one that was taken, mostly with a count that is refused. */
static void alter_payload(trial *t, desk *d)
{
    static planned p;
    p.opcode = (uint8_t)d->model_record[WORD_OPCODE];
    plan_payload(t, &p, &d->model);
    if (!once_in(t->c, 4))
        plan_bad_count(t, &p, &d->model);
    size_t length = d->model_record[WORD_LENGTH] < p.length ? d->model_record[WORD_LENGTH] : p.length;
    if (memcmp(d->model.work, p.payload, length) != 0)
        note_altered(d, WORK, 0);
    memcpy(d->library.work, p.payload, length);
    memcpy(d->model.work, p.payload, length);
    tell_bytes(t, "altered: payload", p.payload, length);
}

/* Whether the session holds a payload that it has accepted. */
static bool holds_payload(const desk *d)
{
    const uint32_t *r = d->model_record;
    return d->kind == KIND_UARTBOOT && r[WORD_PHASE] >= 7 && r[WORD_PHASE] <= 10 &&
           r[WORD_LENGTH] <= d->model.work_length;
}

alters draw_alters(trial *t, uint32_t kind)
{
    uint32_t how = pick(t->c, 8);
    if (how < 6)
        return ALTERS_NOTHING;
    return how == 6 && kind == KIND_UARTBOOT ? ALTERS_PAYLOADS : ALTERS_BYTES;
}

void alter(trial *t, desk *d, alters what)
{
    if (what == ALTERS_BYTES && once_in(t->c, 4))
        alter_byte(t, d);
    if (what == ALTERS_PAYLOADS && holds_payload(d) && once_in(t->c, 2))
        alter_payload(t, d);
}
