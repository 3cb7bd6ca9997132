#include "met_host.h"

#include "records.h"

enum { TAKES_ETX = 1 /* stands for the greeting's last byte, in lists by phase: phase 1 takes none */ };

/* Where 02, 03 or 06 is awaited. */
static void meet_awaited(meeting *met, uint32_t where, uint8_t right, uint8_t byte)
{
    if (byte != right)
        note(met, byte == NAK ? SEEN_ENDED_73 : SEEN_ENDED_75, where);
}

static void meet_greeting(meeting *met, uint8_t byte)
{
    uint32_t place = met->before[WORD_PLACE];
    if (place == 0)
        meet_awaited(met, 0, 0x02, byte);
    else if (place == 3)
        meet_awaited(met, TAKES_ETX, 0x03, byte);
    else if (byte == NAK)
        note(met, SEEN_GREETING_15, place);
}

/* Which bytes of a number are wrong: 1 the low one, 2 the high one, 3 both. */
static uint32_t wrong_bytes(const meeting *met, uint32_t number, uint8_t high)
{
    return (met->before[WORD_HELD] != number % 256 ? 1u : 0) + (high != number / 256 ? 2u : 0);
}

static void meet_low_length(meeting *met, uint32_t awaited, uint8_t byte)
{
    if (byte != NAK)
        return;
    note(met, SEEN_LOW_15, awaited % 256 == NAK);
    if (awaited % 256 != NAK)
        note(met, SEEN_ENDED_73, met->before[WORD_PHASE]);
}

static void meet_length(meeting *met, uint32_t awaited, uint8_t high)
{
    uint32_t wrong = wrong_bytes(met, awaited, high);
    bool none = met->before[WORD_HELD] == 0 && high == 0;
    note(met, awaited ? SEEN_LENGTH_BYTES : SEEN_LENGTH_BYTES_OF_0, wrong);
    if (none && awaited)
        note(met, SEEN_LENGTH_0, awaited > 255);
    if (wrong || awaited == 0)
        note(met, SEEN_ENDED_75, met->before[WORD_PHASE]);
    if (met->before[WORD_HELD] == NAK && awaited % 256 == NAK)
        note(met, SEEN_LENGTH_AFTER_15, wrong != 0);
}

/* A number that is whole only if nothing is cut off, or wraps round. */
static void meet_sum(meeting *met, uint32_t number, uint8_t high)
{
    uint32_t held = met->before[WORD_HELD], sum = held + 256u * high, phase = met->before[WORD_PHASE];
    if (held > 255 && sum == number)
        note(met, sum < held ? SEEN_SUM_WRAPS : SEEN_SUM_WIDE, phase);
    if (held > 255 && sum != number && (uint8_t)held + 256u * high == number)
        note(met, SEEN_SUM_CUT, phase);
}

void meet_host(meeting *met, const desk *d, uint8_t byte)
{
    uint32_t phase = met->before[WORD_PHASE], awaited = model_awaited(&d->request),
             number = phase == 6 ? model_crc16(d->request.payload, d->request.length) : awaited;
    if (phase == 6 || phase == 10)
        meet_sum(met, number, byte);
    if (!d->fresh)
        return;
    switch (phase) {
    case 0: meet_greeting(met, byte); break;
    case 2:
    case 4:
    case 15: meet_awaited(met, phase, ACK, byte); break;
    case 6: note(met, SEEN_DEVICE_CRC, wrong_bytes(met, number, byte)); break;
    case 9: meet_low_length(met, awaited, byte); break;
    case 10: meet_length(met, awaited, byte); break;
    case 16: meet_awaited(met, phase, 0x02, byte); break;
    default: break;
    }
}

void met_host(const meeting *met, const desk *d)
{
    uint32_t reason = d->model_record[WORD_REASON], before = met->before[WORD_REASON];
    if (is_over(met->before) || !is_over(d->model_record))
        return;
    if (d->fresh && reason == 0)
        seen(SEEN_DONE, d->request.opcode);
    if (before > 75 && before == reason)
        seen(SEEN_DONE_KEPT, d->request.opcode);
    if (before && before != reason)
        seen(SEEN_ENDED_REPLACED, reason);
}
