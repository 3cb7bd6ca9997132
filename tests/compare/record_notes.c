#include "records.h"
#include "seen.h"

/* Whether the record would be accepted with another number in one word. */
static bool is_accepted_with(const setting *s, int word, uint32_t number)
{
    setting other = *s;
    other.record[word] = number;
    return is_accepted(&other);
}

static void note_place(const setting *s, bool accepted)
{
    uint32_t kind = s->record[WORD_KIND], phase = s->record[WORD_PHASE], place = s->record[WORD_PLACE];
    uint32_t places = places_of(s->record, &s->request);
    if (!is_accepted_with(s, WORD_PLACE, 0))
        return;
    if (accepted && place == 0)
        seen(SEEN_FIRST_PLACE_P + kind, phase);
    if (accepted && place == places - 1)
        seen(SEEN_LAST_PLACE_P + kind, phase);
    if (!accepted)
        seen((place == places ? SEEN_PLACE_AT_END_P : SEEN_PLACE_BEYOND_P) + kind, phase);
}

static void note_address(const setting *s, bool accepted)
{
    int64_t length = (int64_t)s->contents.ram_length, byte = (int64_t)s->record[WORD_HELD] - RAM_BASE;
    if (!is_accepted_with(s, WORD_HELD, RAM_BASE))
        return;
    seen_address what = byte == 0                             ? ADDRESS_FIRST
                        : byte == length - 1                  ? ADDRESS_LAST
                        : byte == -1                          ? ADDRESS_BEFORE
                        : byte == length                      ? ADDRESS_BEHIND
                        : s->record[WORD_HELD] >= 0xFFFFFFE0u ? ADDRESS_HIGHEST
                                                              : ADDRESS_OTHER;
    seen((accepted ? SEEN_ADDRESS_ACCEPTED_P : SEEN_ADDRESS_REFUSED_P) + s->record[WORD_KIND], what);
}

static void note_opcode(const setting *s, bool accepted)
{
    uint32_t opcode = s->record[WORD_OPCODE];
    if (s->kind == KIND_UARTBOOT && is_accepted_with(s, WORD_OPCODE, OP_RUN))
        seen(accepted ? SEEN_RUNNING_ACCEPTED : SEEN_RUNNING_REFUSED, model_known(opcode) ? opcode : 0);
}

/* Refused for a number of one word, and not with the numbers from `first` to `last` there. */
static bool is_refused_for(const setting *s, int word, uint32_t first, uint32_t last)
{
    for (uint32_t number = first; number <= last; number++)
        if (is_accepted_with(s, word, number))
            return true;
    return false;
}

static void note_kind(const setting *s)
{
    uint32_t kind = s->record[WORD_KIND], phase = s->record[WORD_PHASE];
    bool unknown = s->kind > KIND_E ? kind != s->kind : kind > KIND_E;
    if (unknown && is_accepted_with(s, WORD_KIND, s->kind))
        seen(SEEN_KIND_REFUSED, s->kind);
    if (kind == KIND_P && is_accepted_with(s, WORD_KIND, KIND_E))
        seen(SEEN_PHASE_OF_E, phase);
    if (kind == s->kind && phase > last_phase_of(kind) && is_accepted_with(s, WORD_PHASE, 1))
        seen(SEEN_PHASE_REFUSED, kind);
}

static void note_length(const setting *s)
{
    uint32_t kind = s->record[WORD_KIND], phase = s->record[WORD_PHASE], length = s->record[WORD_LENGTH];
    bool uartboot = kind == KIND_UARTBOOT;
    if (!is_refused_for(s, WORD_LENGTH, 1, 10))
        return;
    if (uartboot && phase <= 10 && !model_has_length(s->record[WORD_OPCODE], length))
        seen(SEEN_LENGTH_OTHER, phase);
    else if (length > (uartboot ? s->contents.work_length : s->contents.ram_length))
        seen(SEEN_LENGTH_ABOVE_P + kind, phase);
    else if (length == 0)
        seen(SEEN_LENGTH_ZERO_P + kind, phase);
}

static void note_command(const setting *s)
{
    uint32_t opcode = s->record[WORD_OPCODE], phase = s->record[WORD_PHASE];
    if (s->kind == KIND_UARTBOOT && phase < 18 && is_refused_for(s, WORD_OPCODE, OP_WRITE, OP_DIRECT_WRITE))
        seen(model_known(opcode) ? SEEN_OPCODE_OTHER : SEEN_OPCODE_UNKNOWN, phase);
}

/* A length as long as its memory, in a phase that has one. */
static void note_longest(const setting *s)
{
    uint32_t kind = s->record[WORD_KIND], phase = s->record[WORD_PHASE];
    bool uartboot = kind == KIND_UARTBOOT, has_length = uartboot ? phase >= 5 && phase <= 17 : phase >= 6 && phase <= 9;
    if (has_length && s->record[WORD_LENGTH] == (uartboot ? s->contents.work_length : s->contents.ram_length))
        seen(SEEN_LENGTH_MOST_P + kind, phase);
}

/* Words that a host does not use. */
static void note_session(const setting *s, bool accepted)
{
    if (is_over(s->record)) {
        note_address(s, accepted);
        note_opcode(s, accepted);
    }
    if (accepted) {
        note_longest(s);
    } else {
        note_length(s);
        note_command(s);
    }
}

/* A phase that the host's command does not have, for what it does not have. */
static void note_phase(const setting *s)
{
    const model_request *q = &s->request;
    uint32_t phase = s->record[WORD_PHASE];
    if (phase > last_phase_of(KIND_HOST) || !is_accepted_with(s, WORD_PHASE, last_phase_of(KIND_HOST)))
        return;
    if (phase == 16)
        seen(SEEN_PHASE_NO_GREETING, q->opcode);
    else if (phase < 9)
        seen(SEEN_PHASE_NO_PAYLOAD, phase);
    else
        seen(model_has_answer(q->opcode) ? SEEN_PHASE_EMPTY_ANSWER : SEEN_PHASE_NO_ANSWER, phase);
}

void note_record(const setting *s)
{
    bool accepted = is_accepted(s);
    note_place(s, accepted);
    if (!accepted)
        note_kind(s);
    if (s->kind != KIND_HOST)
        note_session(s, accepted);
    else if (!accepted)
        note_phase(s);
}
