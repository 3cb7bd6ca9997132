/* Cases of a line with the library's host at one end and its session at the other. */
#include "records.h"
#include "seen.h"
#include "sessions.h"
#include "streams.h"
#include "visit.h"

#include <stdlib.h>
#include <string.h>

enum { GREETING_BYTES = 4, AROUND = 64 /* more than is sent around a payload or an answer */ };

/* One end, and what the other has sent to it. */
typedef struct {
    desk desk;
    stream came;
    size_t taken, sent;
} line_end;

typedef struct {
    line_end host, device;
    size_t ample; /* room for all that either sends for a command */
} line;

/* What a command must come to. */
typedef struct {
    uint32_t reason; /* the device's, or 0 */
    model_outcome outcome;
    size_t sent; /* by the host */
} expectation;

static size_t unread(const line_end *e)
{
    return e->came.length - e->taken;
}

/* A call with the first `shown` unread bytes. Says whether a byte went either way. */
static bool call(trial *t, line_end *e, line_end *other, size_t shown, size_t room)
{
    const uint8_t *reply;
    model_report got = desk_call(t, &e->desk, e->came.bytes + e->taken, shown, room, &reply);
    if (got.number)
        differ(t, "a call on the line is refused with %u", got.number);
    stream_add_all(&other->came, reply, got.sent);
    e->taken += got.taken;
    e->sent += got.sent;
    return got.taken || got.sent;
}

/* Any end, any part of what is unread, any room; sometimes a refused call. */
static void call_any(trial *t, line *l)
{
    static const uint32_t sizes[] = {1, 2, 5, 64, 5000};
    line_end *e = pick(t->c, 2) ? &l->device : &l->host, *other = e == &l->host ? &l->device : &l->host;
    size_t most = PICK_OF(t->c, sizes), left = unread(e) < most ? unread(e) : most;
    size_t shown = pick(t->c, (uint32_t)left + 1), room = pick(t->c, PICK_OF(t->c, sizes) + 1);
    if (once_in(t->c, 12))
        refused_call(t, &e->desk, e->came.bytes + e->taken, unread(e));
    call(t, e, other, shown, room);
}

/* Calls at random, then both ends in turns with all that is unread until neither goes on. */
static void run_schedule(trial *t, line *l)
{
    bool moved = true;
    for (uint32_t left = pick(t->c, 60); left > 0 && !differs(t); left--)
        call_any(t, l);
    while (moved && !differs(t)) {
        moved = call(t, &l->host, &l->device, unread(&l->host), l->ample);
        moved |= call(t, &l->device, &l->host, unread(&l->device), l->ample);
    }
}

/* Writes to the memories what the command must leave there. RAM and flash stay where it is refused, but for reason
   18. */
static expectation expect(const planned *p, const model_memories *m)
{
    expectation e = {.sent = 4};
    if (p->length > m->work_length) {
        e.reason = 13;
        return e;
    }
    if (p->length) {
        memcpy(m->work, p->payload, p->length);
        e.sent += p->length;
        e.reason = model_judge(p->opcode, p->length, m);
    }
    if (e.reason)
        return e;
    e.outcome = model_execute(p->opcode, p->length, m);
    e.reason = e.outcome.reason;
    e.sent += (p->length ? 1 : 0) + (e.outcome.answer ? 3 : 0);
    return e;
}

/* One with lengths that the host accepts: it may be too long for the device, and its numbers may be any. */
static void plan_for_host(trial *t, planned *p, const model_memories *m)
{
    do {
        plan_command(t, p, m);
    } while (!model_has_length(p->opcode, p->length) || p->length > MOST_WORK);
}

static void set_host(trial *t, line *l, planned *p)
{
    setting s = {.kind = KIND_HOST, .request = {p->opcode, p->payload, p->length}, .fresh = true};
    size_t longer = once_in(t->c, 2) ? pick(t->c, 9) : 0;
    s.contents = contents_of(LEAD_CONTENTS, 0, 0, model_awaited(&s.request) + longer);
    memset(s.contents.work, 0xEE, s.contents.work_length);
    fresh_record(t, KIND_HOST, s.record);
    desk_set(t, &l->host.desk, &s);
    l->host.sent = 0;
    l->ample = AROUND + p->length + model_awaited(&s.request);
    tell(t, "host: opcode %u\n", p->opcode);
    tell_bytes(t, "payload", p->payload, p->length);
}

/* The host holds the answer and has written nothing after it. */
static void check_answer(trial *t, const desk *host, const model_memories *m, const expectation *e)
{
    size_t answer = e->reason ? 0 : e->outcome.answer;
    same_bytes(t, "answer on the line", host->library.work, m->work, answer);
    for (size_t i = answer; i < host->library.work_length; i++)
        if (host->library.work[i] != 0xEE)
            differ(t, "byte %zu after the answer on the line was written", i);
}

static void check_host(trial *t, const line_end *host, const model_memories *m, const expectation *e)
{
    const uint32_t *r = host->desk.record;
    if (!is_over(r))
        differ(t, "the host on the line is not over, but in phase %u", r[WORD_PHASE]);
    same_number(t, "the host's reason on the line", r[WORD_REASON], e->reason ? 73 : 0);
    same_number(t, "bytes that the host has sent", host->sent, e->sent);
    check_answer(t, &host->desk, m, e);
}

/* The device has taken all, and greets again or runs code; `last` is the last reason. */
static void check_device(trial *t, const line *l, const model_memories *m, uint32_t last, const expectation *e)
{
    const desk *d = &l->device.desk;
    const uint32_t *r = d->record;
    same_number(t, "bytes unread by the device", unread(&l->device), 0);
    same_number(t, "the device's phase", r[WORD_PHASE], e->outcome.runs ? 19 : 1);
    same_number(t, "the device's reason", r[WORD_REASON], last);
    same_number(t, "where code runs", e->outcome.runs ? r[WORD_HELD] : 0, e->outcome.address);
    same_number(t, "bytes unread by the host", unread(&l->host), e->outcome.runs ? 0 : GREETING_BYTES);
    if (!e->outcome.runs && !differs(t))
        same_bytes(t, "the greeting", l->host.came.bytes + l->host.taken, (const uint8_t *)"\x02\x01\x00\x03",
                   GREETING_BYTES);
    same_bytes(t, "RAM on the line", d->library.ram, m->ram, m->ram_length);
    same_bytes(t, "flash on the line", d->library.flash, m->flash, m->flash_length);
    same_bytes(t, "work on the line", d->library.work, m->work, m->work_length);
}

/* A command from a fresh host on, and what it must leave. Gives its reason. */
static uint32_t run_command(trial *t, line *l, const model_memories *expected, uint32_t last)
{
    static planned p;
    plan_for_host(t, &p, expected);
    expectation e = expect(&p, expected);
    set_host(t, l, &p);
    run_schedule(t, l);
    check_host(t, &l->host, expected, &e);
    check_device(t, l, expected, e.reason ? e.reason : last, &e);
    if (e.reason)
        seen(SEEN_JOINED_REFUSED, e.reason);
    else
        seen(SEEN_JOINED_DONE, p.opcode);
    return e.reason;
}

void joined_case(trial *t)
{
    line l = {0};
    setting s = {.kind = KIND_UARTBOOT, .contents = first_memories(t, KIND_UARTBOOT), .fresh = true};
    model_memories expected = contents_of(EXPECTED_CONTENTS, 0, 0, 0);
    uint32_t last = 0, commands = 1 + pick(t->c, 4);
    copy_contents(&expected, &s.contents);
    fresh_record(t, KIND_UARTBOOT, s.record);
    desk_set(t, &l.device.desk, &s);
    for (uint32_t i = 0; i < commands && !differs(t) && !is_over(l.device.desk.record); i++) {
        uint32_t reason = run_command(t, &l, &expected, last);
        last = reason ? reason : last;
        if (i + 1 < commands && !is_over(l.device.desk.record))
            seen(SEEN_JOINED_AGAIN, reason != 0);
    }
    free(l.host.came.bytes);
    free(l.device.came.bytes);
}
