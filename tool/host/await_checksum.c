#include "await.h"
#include "clock.h"
#include "endings.h"
#include "talk.h"

/* In milliseconds: how often it is looked whether bytes still leave. */
enum { LOOK = 200 };

/* The chip starts again after this. */
static void refuse_checksum(loading *l)
{
    const uint8_t nak = UND_LINE_NAK;
    size_t sent;
    line_write(&l->line, &nak, 1, LOOK, &sent);
    line_drain(&l->line);
}

/* A chip that waits to be told to start sends nothing after its checksum; one that was reset greets again and again,
   and a greeting may look like the checksum. */
static int judge(loading *l, uint8_t wanted, uint8_t got)
{
    bool more = false;
    uint8_t byte = got;
    int quiet = wanted == UND_LINE_GREETING ? GREETS_WITHIN : l->heard.settles;
    int code = got == wanted ? talk_hear(l, milliseconds_now() + quiet, &byte, &more) : DONE;
    if (code != DONE || (got == wanted && !more))
        return code;
    log_event(
        &l->log,
        &(event){
            .from = FROM_CHIP, .name = "unexpected", .bytes = &byte, .count = 1, .words = "not the byte that is due"});
    refuse_checksum(l);
    return more ? end_after_checksum(byte) : end_wrong_checksum(wanted, got);
}

int await_checksum(loading *l, uint8_t wanted)
{
    long long patience = loading_patience(l), end = milliseconds_now() + patience + pace_arrival(&l->pace);
    for (size_t unsent = line_unsent(&l->line);;) {
        bool came;
        uint8_t byte;
        int code = talk_hear(l, milliseconds_now() + LOOK, &byte, &came);
        if (code != DONE)
            return code;
        long long now = milliseconds_now();
        size_t rest = line_unsent(&l->line);
        if (came)
            return rest > 0 ? end_interrupted(l, byte) : judge(l, wanted, byte);
        if (rest < unsent && end < now + patience)
            end = now + patience;
        unsent = rest;
        if (now >= end)
            return end_without_checksum(l);
    }
}
