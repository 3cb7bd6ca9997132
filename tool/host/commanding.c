#include "commanding.h"

#include "clock.h"
#include "outcomes.h"

#include <limits.h>
#include <string.h>

/* A host never sends more at once than a payload. */
enum { MOST_SENT = UND_WORK_MAX };

static long long patience_of(const commanding *c)
{
    return (long long)c->seconds * 1000;
}

/* One call of the host. It is shown bytes or has room, not both, so that it stays in one part of the flow. */
static int call(commanding *c, size_t shown, uint8_t *output, size_t room, und_report *r)
{
    uartboot_command *now = c->now;
    const uint8_t *input = c->came + c->at;
    memcpy(c->before, c->record, sizeof c->before);
    c->shown = shown ? *input : 0;
    *r = und_host_call(c->record, now->opcode, now->payload.bytes, now->payload.length, input, shown, output, room,
                       now->answer.bytes, now->answer.length);
    return r->number == 0 ? DONE : end_refused(c, r->number);
}

/* Gives bytes to the line. They have arrived once they have had their time on the wire. */
static int give(commanding *c, const uint8_t *bytes, size_t length)
{
    int code = DONE;
    pace_begin(&c->pace);
    for (size_t count = 0; code == DONE && length > 0; bytes += count, length -= count) {
        long long patience = patience_of(c) + pace_rest(&c->pace);
        line_event happened = line_write(&c->line, bytes, length, (int)patience, &count);
        pace_add(&c->pace, count);
        visit_move(&c->log.visit, count);
        code = happened == LINE_QUIET ? end_blocked(c) : end_by_line(c, happened);
    }
    c->arrived = milliseconds_now() + pace_arrival(&c->pace);
    return code;
}

/* Nothing comes back for what is sent last: then it is seen to that it has left. */
static int send_due(commanding *c, und_report *r)
{
    static uint8_t output[MOST_SENT];
    int code = call(c, 0, output, sizeof output, r);
    if (code == DONE)
        code = give(c, output, r->sent);
    if (code == DONE && c->before[UND_RECORD_PHASE] == SENDS_HEADER)
        tell_sent(c, output, r->sent);
    if (code == DONE && r->standing == UND_OVER)
        line_drain(&c->line);
    return code;
}

/* Waits for bytes from the device. */
static int receive(commanding *c)
{
    long long now = milliseconds_now(), until = (c->arrived > now ? c->arrived : now) + patience_of(c);
    int code = DONE;
    c->at = c->end = 0;
    while (code == DONE && c->end == 0) {
        long long left = until - milliseconds_now();
        int patience = left <= 0 ? 0 : left < INT_MAX ? (int)left : INT_MAX;
        code = end_by_line(c, line_read(&c->line, c->came, sizeof c->came, patience, &c->end));
        if (code == DONE && c->end == 0 && left <= 0)
            code = end_silent(c);
    }
    return code;
}

/* One byte at a time, so that the phase says what a wrong one was taken for; but the answer as it comes. */
static int take(commanding *c, und_report *r)
{
    bool answer = c->record[UND_RECORD_PHASE] == TAKES_ANSWER;
    int code = c->at == c->end ? receive(c) : DONE;
    if (code == DONE)
        code = call(c, answer ? c->end - c->at : 1, NULL, 0, r);
    if (code != DONE)
        return code;
    c->at += r->taken;
    c->now->answered += answer ? r->taken : 0;
    return DONE;
}

int send_command(commanding *c, uartboot_command *command)
{
    und_report r;
    c->now = command;
    c->pace.baud = c->line.baud;
    command->answered = 0;
    und_host_fresh(c->record);
    int code = call(c, 0, NULL, 0, &r);
    while (code == DONE && r.standing != UND_OVER)
        code = r.standing == UND_WANTS_ROOM ? send_due(c, &r) : take(c, &r);
    return code == DONE ? tell_outcome(c) : code;
}
