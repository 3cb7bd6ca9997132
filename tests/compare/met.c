#include "met.h"

#include "met_host.h"
#include "met_ranges.h"
#include "records.h"

#include <stdlib.h>
#include <string.h>

void note(meeting *met, seen_what what, uint32_t number)
{
    if (met->count == MOST_NOTES)
        abort();
    met->notes[met->count].what = what;
    met->notes[met->count++].number = number;
}

/* A payload's reason in one of the lists that begin with reason 14. */
static void note_reason_of(meeting *met, seen_what of_14, uint32_t reason, uint32_t opcode)
{
    static const uint32_t reasons[] = {14, 15, 16, 17, 21};
    uint32_t i = 0;
    while (reasons[i] != reason)
        if (++i == sizeof reasons / sizeof *reasons)
            abort();
    note(met, of_14 + i, opcode);
}

/* Whether the opcode has a longer payload than this one. */
static bool is_short(uint32_t opcode, uint64_t length)
{
    enum { LONGEST_NUMBERS = 10 };
    for (uint64_t more = length + 1; more <= LONGEST_NUMBERS; more++)
        if (model_has_length(opcode, more))
            return true;
    return false;
}

/* The byte that makes a header whole. */
static void meet_header(meeting *met, const desk *d, uint8_t high)
{
    uint32_t opcode = met->before[WORD_OPCODE];
    uint64_t length = (uint64_t)met->before[WORD_HELD] + 256u * high;
    bool above = length > d->model.work_length;
    if (!d->fresh)
        return;
    if (!model_known(opcode))
        note(met, SEEN_HEADER_STRANGE, above);
    else if (model_has_length(opcode, length))
        note(met, above ? SEEN_HEADER_ABOVE : SEEN_HEADER_ACCEPTED, opcode);
    else if (is_short(opcode, length))
        note(met, SEEN_HEADER_SHORT, opcode);
    else
        note(met, above ? SEEN_HEADER_LONG_ABOVE : SEEN_HEADER_LONG, opcode);
}

/* The byte that makes a payload whole. */
static void meet_payload(meeting *met, const desk *d, uint8_t last)
{
    uint32_t opcode = met->before[WORD_OPCODE], length = met->before[WORD_LENGTH];
    uint8_t *end = &d->model.work[length - 1], kept = *end;
    *end = last;
    uint32_t reason = model_judge(opcode, length, &d->model);
    if (d->fresh && reason)
        note_reason_of(met, SEEN_PAYLOAD_14, reason, opcode);
    meet_ranges(met, d);
    *end = kept;
}

/* The byte on which a command is executed: what the work buffer holds is judged again. */
static void meet_execution(meeting *met, const desk *d, uint8_t byte)
{
    uint32_t opcode = met->before[WORD_OPCODE];
    uint32_t reason = model_judge(opcode, met->before[WORD_LENGTH], &d->model);
    met->executes = byte == ACK && !reason;
    if (byte != ACK)
        note(met, SEEN_NOT_EXECUTED, opcode);
    else if (reason)
        note_reason_of(met, d->fresh ? SEEN_AGAIN_14 : SEEN_GIVEN_14, reason, opcode);
    else
        note(met, d->fresh ? SEEN_EXECUTED : SEEN_EXECUTED_GIVEN, opcode);
}

static void meet_host_crc(meeting *met, const desk *d, uint8_t high)
{
    uint32_t crc = model_crc16(d->model.work, met->before[WORD_LENGTH]);
    note(met, SEEN_HOST_CRC, (met->before[WORD_HELD] != crc % 256 ? 1u : 0) + (high != crc / 256 ? 2u : 0));
}

static void meet_uartboot(meeting *met, const desk *d, uint8_t byte)
{
    const uint32_t *r = met->before;
    switch (r[WORD_PHASE]) {
    case 4: meet_header(met, d, byte); break;
    case 6:
        if (r[WORD_PLACE] + 1 == r[WORD_LENGTH])
            meet_payload(met, d, byte);
        break;
    case 10: meet_execution(met, d, byte); break;
    case 13:
        if (byte != ACK)
            note(met, SEEN_NOT_ANSWERED, r[WORD_OPCODE]);
        break;
    case 16: meet_host_crc(met, d, byte); break;
    default: break;
    }
}

/* A low byte of a length or of a CRC is any number in a given record. */
static void meet_wide(meeting *met)
{
    if (met->before[WORD_HELD] > 255 && !is_over(met->before))
        note(met, SEEN_WIDE_P + met->before[WORD_KIND], met->before[WORD_PHASE]);
}

static bool is_sound(const desk *d)
{
    setting s = {.kind = d->kind, .contents = d->model, .request = d->request};
    memcpy(s.record, d->model_record, sizeof s.record);
    return is_accepted(&s);
}

meeting meeting_before(const desk *d, const uint8_t *input, size_t shown, size_t room)
{
    meeting met = {0};
    memcpy(met.before, d->model_record, sizeof met.before);
    if (!is_sound(d))
        return met;
    if (is_over(met.before) && shown && room)
        note(&met, SEEN_RUNNING_SHOWN, d->kind);
    if (d->kind == KIND_UARTBOOT && met.before[WORD_PHASE] == 5 && met.before[WORD_LENGTH] == 0 && room)
        note(&met, d->fresh ? SEEN_EXECUTED : SEEN_EXECUTED_GIVEN, met.before[WORD_OPCODE]);
    if (shown) {
        meet_wide(&met);
        if (d->kind == KIND_UARTBOOT)
            meet_uartboot(&met, d, input[0]);
        else if (d->kind == KIND_HOST)
            meet_host(&met, d, input[0]);
        else
            met.executes = met.before[WORD_PHASE] == 9 && input[0] == ACK;
    }
    return met;
}

static void note_reason(const meeting *met, const desk *d, const model_report *r)
{
    const uint32_t *record = d->model_record;
    uint32_t before = met->before[WORD_REASON], after = record[WORD_REASON];
    static const uint32_t sends_15[] = {[KIND_P] = 10, [KIND_E] = 10, [KIND_UARTBOOT] = 18, [KIND_HOST] = 8};
    seen(SEEN_REASON, after);
    if (record[WORD_PHASE] == sends_15[d->kind])
        seen(SEEN_REASON_BEFORE_15, after);
    if (before && before != after)
        seen(SEEN_REASON_REPLACED, after);
    if (met->executes && r->taken == 1 && before && before == after)
        seen(SEEN_REASON_KEPT, d->kind);
}

void meeting_after(const meeting *met, const desk *d, const model_report *r)
{
    static const seen_what numbers[] = {SEEN_ROM_NUMBER, SEEN_ROM_NUMBER, SEEN_UARTBOOT_NUMBER, SEEN_HOST_NUMBER};
    static const seen_what phases[] = {SEEN_ROM_P, SEEN_ROM_E, SEEN_UARTBOOT, SEEN_HOST};
    const uint32_t *record = d->model_record;
    seen(numbers[d->kind], r->number);
    for (int i = 0; i < met->count; i++)
        seen(met->notes[i].what, met->notes[i].number);
    if (d->kind == KIND_HOST && r->number == 0)
        met_host(met, d);
    if (r->number || !d->fresh)
        return;
    seen(SEEN_STANDING, r->standing);
    seen(phases[record[WORD_KIND]], record[WORD_PHASE]);
    note_reason(met, d, r);
    if (record[WORD_KIND] == KIND_UARTBOOT && (record[WORD_PHASE] == 5 || record[WORD_PHASE] == 10))
        seen(SEEN_OPCODE, record[WORD_OPCODE]);
}
