/* What the chip has to answer, and when it is its turn, comes from a receiver of the library that is fed the same
   frame: the host sends what that one takes, and waits for what that one sends. */
#include "loading.h"

#include "await.h"
#include "memory.h"
#include "story.h"
#include "talk.h"

#include <stdlib.h>
#include <string.h>

long long loading_patience(const loading *l)
{
    return (long long)l->seconds * 1000;
}

/* The host's side of a part of the flow: sends what the receiver takes, waits for what it sends. */
static int answer_part(loading *l, part now, size_t taken, uint8_t sent)
{
    switch (now) {
    case GREETING: return await_greeting(l);
    case HEADER: return talk_header(l, taken);
    case HEADER_ANSWER: return await_answer(l, sent);
    case CODE: return talk_code(l, taken);
    case CHECKSUM: return await_checksum(l, sent);
    default: return talk_go(l);
    }
}

/* Lets the receiver take or send all bytes of the part of the flow that it is in. */
static und_report turn_part(session *twin, const uint8_t *bytes, size_t length, uint8_t *reply)
{
    part now = phase_of(twin->record).part;
    und_report all = {0}, r;
    do {
        r = session_turn(twin, bytes + all.taken, length - all.taken, reply, 1);
        all.number = r.number;
        all.taken += r.taken;
        all.sent += r.sent;
    } while (r.number == 0 && r.taken + r.sent > 0 && phase_of(twin->record).part == now);
    return all;
}

/* One part of the flow, followed on the line. */
static int follow(loading *l, session *twin, story *told)
{
    uint8_t reply = 0;
    uint32_t before[UND_RECORD_WORDS];
    phase now = phase_of(twin->record);
    const uint8_t *bytes = l->frame.bytes + l->sent;
    memcpy(before, twin->record, sizeof before);
    und_report r = turn_part(twin, bytes, l->frame.length - l->sent, &reply);
    if (r.number != 0)
        return refuse(r.number, "in the middle of a load");
    int code = answer_part(l, now.part, r.taken, reply);
    if (code == DONE)
        story_turn(told, before, twin->record, now.sends ? &reply : bytes, r.sent + r.taken);
    return code;
}

int load_frame(loading *l)
{
    session twin = {.ram = {memory_of(UND_RAM_MAX), UND_RAM_MAX}};
    story told;
    int code = DONE;
    l->pace.baud = l->line.baud;
    heard_begin(&l->heard, line_settles(&l->line));
    session_fresh(&twin, l->kind);
    story_begin(&told, &l->log, &twin);
    while (code == DONE && phase_of(twin.record).part != RUNNING)
        code = follow(l, &twin, &told);
    story_end(&told);
    free(twin.ram.bytes);
    if (code == DONE)
        line_drain(&l->line);
    return code;
}
