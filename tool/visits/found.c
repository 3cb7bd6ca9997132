#include "found.h"

#include <string.h>

part part_due(const found_reply *f)
{
    return walk_phase(f->at).part;
}

bool is_extra(const found_reply *f)
{
    return !walk_phase(f->at).sends;
}

bool is_greeting(const uint8_t *bytes, size_t length)
{
    uint8_t greeting[MOST_GREETING];
    size_t count = session_greeting(UND_KIND_UARTBOOT, greeting);
    return length >= count && memcmp(bytes, greeting, count) == 0;
}

bool greets(const found_reply *f)
{
    return part_due(f) != GREETING && is_greeting(f->bytes, f->count);
}

/* Whether a command without an answer has just been carried out, or was not acknowledged. */
static bool is_carried_out(const walk *w)
{
    return w->before == GO || w->before == HEADER_ANSWER;
}

const char *refusal_found(const found_reply *f)
{
    bool first = f->at->in_part == 0;
    if (f->bytes[0] != UND_LINE_NAK)
        return NULL;
    switch (part_due(f)) {
    case HEADER_ANSWER: return "the device refuses the header";
    case CHECKSUM: return first ? "the device refuses the payload" : NULL;
    case ANSWER_LENGTH: return first ? "the device refuses the command" : NULL;
    case GREETING: return first && is_carried_out(f->at) ? "the device refuses the command" : NULL;
    case ANSWER_END: return "the device calls the host's CRC-16 of the answer wrong";
    default: return NULL;
    }
}

const char *acceptance_found(const found_reply *f)
{
    if (part_due(f) != REFUSAL)
        return NULL;
    if (f->at->before == GO)
        return f->bytes[0] == UND_LINE_GREETING ? "the device greets: the command is done" : NULL;
    if (f->bytes[0] != UND_LINE_ACK)
        return NULL;
    return f->at->before == HEADER    ? "the device accepts the header"
           : f->at->before == PAYLOAD ? "the device accepts the payload"
                                      : "the device accepts the host's CRC-16 of the answer";
}

const char *found_meaning(const found_reply *f)
{
    if (f->count == 0)
        return "the recording ends here";
    if (is_extra(f))
        return greets(f) ? "the device greets again" : "the device says more";
    const char *answer = acceptance_found(f);
    if (!answer)
        answer = refusal_found(f);
    return answer ? answer : greets(f) ? "the device greets" : NULL;
}
