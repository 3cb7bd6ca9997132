#include "story.h"

#include "memory.h"
#include "range.h"

#include <stdlib.h>
#include <string.h>

/* No part of the flow has more bytes than RAM or a payload may have. */
enum { MOST_BYTES = UND_RAM_MAX };

static const char *const part_names[] = {
    [GREETING] = "greeting",
    [HEADER] = "header",
    [HEADER_ANSWER] = "header-accepted",
    [CODE] = "code",
    [PAYLOAD] = "payload",
    [CHECKSUM] = "checksum",
    [GO] = "acknowledgement",
    [ANSWER_LENGTH] = "answer-length",
    [ANSWER_GO] = "answer-wanted",
    [ANSWER] = "answer",
    [ANSWER_CRC] = "answer-checksum",
    [ANSWER_END] = "answer-accepted",
    [REFUSAL] = "refusal",
    [RUNNING] = "running",
};

void story_begin(story *s, event_log *log, const session *of)
{
    *s = (story){.log = log, .of = of, .bytes = memory_of(MOST_BYTES)};
}

static bool is_uartboot(const uint32_t *record)
{
    return record[UND_RECORD_KIND] == UND_KIND_UARTBOOT;
}

static void add_header(text *t, const uint32_t *after)
{
    uint32_t length = after[UND_RECORD_LENGTH];
    text_add(t, "header: %s, ", is_uartboot(after) ? opcode_name(after[UND_RECORD_OPCODE]) : "code");
    if (length)
        add_count(t, length);
    else
        text_add(t, "no payload");
}

static void add_told_payload(text *t, const story *s)
{
    uint32_t opcode = s->first[UND_RECORD_OPCODE];
    text_add(t, "payload: %s, ", opcode_name(opcode));
    add_payload(t, opcode, s->bytes, s->count);
}

/* What follows once a command was carried out. */
static void add_outcome(text *t, uint32_t opcode, const uint32_t *after)
{
    part next = phase_of(after).part;
    if (next == RUNNING)
        text_add(t, "code runs at 0x%08X", after[UND_RECORD_HELD]);
    else if (next == ANSWER_LENGTH)
        text_add(t, "%s, an answer follows", opcode_name(opcode));
    else
        text_add(t, "%s is done", opcode_name(opcode));
}

static bool is_refused(const story *s, const uint32_t *after)
{
    part told = phase_of(s->first).part, next = phase_of(after).part;
    bool waits_for_ack = told == GO || told == ANSWER_GO;
    return (told != REFUSAL && next == REFUSAL) || (waits_for_ack && s->bytes[s->count - 1] != UND_LINE_ACK);
}

/* What the part's bytes mean, where the flow goes on. */
static void add_accepted(text *t, const story *s, const uint32_t *after)
{
    bool uartboot = is_uartboot(after);
    switch (phase_of(s->first).part) {
    case GREETING:
        text_add(t, uartboot ? "greeting: uartboot waits for a command" : "greeting: the boot ROM waits for code");
        break;
    case HEADER: add_header(t, after); break;
    case HEADER_ANSWER:
        text_add(t, "header accepted");
        if (uartboot && phase_of(after).part != PAYLOAD) {
            text_add(t, ": ");
            add_outcome(t, s->first[UND_RECORD_OPCODE], after);
        }
        break;
    case CODE:
        text_add(t, "code: ");
        add_count(t, s->count);
        text_add(t, ", in RAM from 0x%08X on", UND_RAM_FIRST);
        break;
    case PAYLOAD: add_told_payload(t, s); break;
    case CHECKSUM: text_add(t, uartboot ? "payload accepted, with its CRC-16" : "checksum: the XOR of the code"); break;
    case GO:
        text_add(t, "acknowledged: ");
        add_outcome(t, s->first[UND_RECORD_OPCODE], after);
        break;
    case ANSWER_LENGTH:
        text_add(t, "answer: ");
        add_count(t, after[UND_RECORD_LENGTH]);
        break;
    case ANSWER_GO: text_add(t, "answer wanted"); break;
    case ANSWER: text_add(t, "answer to %s", opcode_name(s->first[UND_RECORD_OPCODE])); break;
    case ANSWER_CRC: text_add(t, "CRC-16 of the answer: right"); break;
    case ANSWER_END: text_add(t, "answer accepted: %s is done", opcode_name(s->first[UND_RECORD_OPCODE])); break;
    case REFUSAL: text_add(t, "refusal: %s", s->refused.what); break;
    case RUNNING: break;
    }
}

static void tell(story *s, event e, const text *words)
{
    e.from = phase_of(s->first).sends ? FROM_CHIP : FROM_HOST;
    e.bytes = s->bytes;
    e.count = s->count;
    e.words = words->chars;
    log_event(s->log, &e);
    s->count = 0;
}

static const char *reason_prefix(part told, uint8_t last)
{
    if (told == GO && last == UND_LINE_ACK)
        return "acknowledged, then ";
    return told == PAYLOAD ? "; " : told == HEADER ? "header " : "";
}

/* The words for a reason; those against a range are made from the payload that was refused. */
static void find_words(story *s, uint32_t reason, text *fields)
{
    refused_command c = {reason,   s->first[UND_RECORD_OPCODE], s->bytes,
                         s->count, s->of->ram.length,           s->of->flash.length};
    text_free(&s->what);
    text_free(&s->next);
    s->refused = *meaning_of(reason);
    s->refused.number = reason;
    if (phase_of(s->first).part != PAYLOAD || !is_of_range(reason))
        return;
    add_range(&c, &s->what, &s->next, fields);
    s->refused = (meaning){reason, s->what.chars, s->next.chars};
}

static void tell_refused(story *s, uint32_t reason)
{
    text t = {0}, fields = {0};
    part told = phase_of(s->first).part;
    const meaning *m = &s->refused;
    find_words(s, reason, &fields);
    if (told == PAYLOAD)
        add_told_payload(&t, s);
    text_add(&t, "%srefused, reason %u: %s (next: %s)", reason_prefix(told, s->bytes[s->count - 1]), reason, m->what,
             m->next);
    tell(s, (event){.name = part_names[told], .refused = m, .fields = fields.length ? &fields : NULL}, &t);
    text_free(&t);
    text_free(&fields);
}

static void tell_part(story *s, const uint32_t *after)
{
    text t = {0};
    if (is_refused(s, after)) {
        tell_refused(s, after[UND_RECORD_REASON]);
        return;
    }
    add_accepted(&t, s, after);
    tell(s, (event){.name = part_names[phase_of(s->first).part]}, &t);
    text_free(&t);
}

void story_rest(story *s)
{
    if (s->count == 0 || !s->dropped)
        return;
    text t = {0};
    text_add(&t, "dropped: no command begins so");
    tell(s, (event){.name = "dropped"}, &t);
    text_free(&t);
}

void story_turn(story *s, const uint32_t before[UND_RECORD_WORDS], const uint32_t after[UND_RECORD_WORDS],
                const uint8_t *bytes, size_t count)
{
    if (count == 0)
        return;
    bool dropped = phase_of(before).idle && phase_of(after).idle;
    if (!dropped)
        story_rest(s);
    s->dropped = dropped;
    if (s->count == 0)
        memcpy(s->first, before, sizeof s->first);
    size_t room = MOST_BYTES - s->count;
    memcpy(s->bytes + s->count, bytes, count < room ? count : room);
    s->count += count < room ? count : room;
    if (phase_of(after).part != phase_of(s->first).part)
        tell_part(s, after);
}

void story_end(story *s)
{
    if (s->count > 0) {
        text t = {0};
        text_add(&t, "%s, cut short after ", part_names[phase_of(s->first).part]);
        add_count(&t, s->count);
        tell(s, (event){.name = "cut-short"}, &t);
        text_free(&t);
    }
    text_free(&s->what);
    text_free(&s->next);
    free(s->bytes);
    s->bytes = NULL;
}
