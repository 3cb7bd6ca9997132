#include "due.h"

#include "range.h"
#include "words.h"

bool has_opcode(const walk *w)
{
    return w->header_length > 1;
}

uint32_t opcode_of(const walk *w)
{
    return w->header[1];
}

/* Whether all of the last command's payload has come. */
static bool has_payload(const walk *w)
{
    return w->header_length == COMMAND_HEADER && w->payload.length > 0 &&
           w->payload.length == w->header[2] + 256u * w->header[3];
}

void add_command(text *t, const walk *w)
{
    text_add(t, "command %zu", w->commands);
    if (!has_opcode(w))
        return;
    text_add(t, ", %s", opcode_name(opcode_of(w)));
    if (und_read_command(opcode_of(w), NULL, 0).number == UND_UNKNOWN_OPCODE)
        text_add(t, " (opcode %02X)", opcode_of(w));
    if (has_payload(w)) {
        text_add(t, ": ");
        add_payload(t, opcode_of(w), w->payload.bytes, w->payload.length);
    }
}

void add_where(text *t, const walk *w)
{
    phase now = walk_phase(w);
    bool after = now.part == GREETING || now.part == RUNNING || now.idle;
    if (w->commands == 0) {
        text_add(t, "before the first command");
        return;
    }
    text_add(t, after ? "after " : "in ");
    add_command(t, w);
}

und_command asked_for(const walk *w)
{
    return und_read_command(opcode_of(w), w->payload.bytes, w->payload.length);
}

size_t ram_place(const walk *w)
{
    return asked_for(w).address - UND_RAM_FIRST + w->session.record[UND_RECORD_PLACE];
}

size_t flash_place(const walk *w)
{
    return (size_t)asked_for(w).offset + w->session.record[UND_RECORD_PLACE];
}

/* Where an answer's byte comes from. */
static void add_source(text *t, const walk *w)
{
    if (payload_has(opcode_of(w), ADDRESS))
        text_add(t, ", RAM address 0x%08zX", UND_RAM_FIRST + ram_place(w));
    if (payload_has(opcode_of(w), OFFSET))
        text_add(t, ", flash offset 0x%05zX", flash_place(w));
}

static void add_reason(text *t, const walk *w)
{
    const session *s = &w->session;
    text next = {0}, fields = {0};
    refused_command c = {s->record[UND_RECORD_REASON],
                         opcode_of(w),
                         w->payload.bytes,
                         w->payload.length,
                         s->ram.length,
                         s->flash.length};
    text_add(t, "refused, reason %u: ", c.reason);
    if (is_of_range(c.reason))
        add_range(&c, t, &next, &fields);
    else
        text_add(t, "%s", meaning_of(c.reason)->what);
    text_free(&next);
    text_free(&fields);
}

void add_reply(text *t, const walk *w)
{
    static const char *const checksum[] = {"the payload is accepted", "the low byte of the payload's CRC-16",
                                           "the high byte of the payload's CRC-16"};
    uint8_t greeting[MOST_GREETING];
    const uint32_t *record = w->session.record;
    switch (walk_phase(w).part) {
    case GREETING:
        text_add(t, "byte %zu of the greeting's %zu", w->in_part + 1, session_greeting(UND_KIND_UARTBOOT, greeting));
        break;
    case HEADER_ANSWER: text_add(t, "the header is accepted"); break;
    case CHECKSUM: text_add(t, "%s", checksum[w->in_part]); break;
    case ANSWER_LENGTH:
        text_add(t, "the %s byte of the answer's length, ", w->in_part ? "high" : "low");
        add_count(t, record[UND_RECORD_LENGTH]);
        break;
    case ANSWER:
        text_add(t, "byte %u of the answer's %u", record[UND_RECORD_PLACE] + 1, record[UND_RECORD_LENGTH]);
        add_source(t, w);
        break;
    case ANSWER_END: text_add(t, "the host's CRC-16 of the answer is right"); break;
    case REFUSAL: add_reason(t, w); break;
    default: break;
    }
}

static void add_awaited(text *t, const walk *w)
{
    const uint32_t *record = w->session.record;
    switch (walk_phase(w).part) {
    case PAYLOAD:
        add_count(t, record[UND_RECORD_LENGTH] - record[UND_RECORD_PLACE]);
        text_add(t, " of the payload");
        break;
    case GO: text_add(t, "the host's 06 after the payload's CRC-16"); break;
    case ANSWER_GO: text_add(t, "the host's 06 after the answer's length"); break;
    case ANSWER_CRC: text_add(t, "the host's CRC-16 of the answer"); break;
    default: text_add(t, walk_phase(w).idle ? "a command" : "the rest of a header"); break;
    }
}

void add_rest(text *t, const walk *w)
{
    if (walk_phase(w).part == RUNNING) {
        text_add(t, "code runs at 0x%08X", w->session.record[UND_RECORD_HELD]);
        return;
    }
    text_add(t, "uartboot waits for ");
    add_awaited(t, w);
}
