/* What a device might send to a host. */
#include "fill.h"
#include "streams.h"

/* The number's own high byte, or the one that makes it whole from what the host holds on: a given record may hold
   anything. */
static uint32_t high_byte(const lead *g, uint32_t number)
{
    return once_in(g->t->c, 4) ? number / 256 : (uint8_t)((number - g->record[WORD_HELD]) / 256);
}

/* Mostly the right byte, else often 15. */
static uint32_t or_nak(trial *t, uint32_t right)
{
    return once_in(t->c, 24) ? NAK : or_other(t, right, 16);
}

/* The answer's length, mostly the right one. */
static void play_length(lead *g, uint32_t awaited)
{
    uint16_t others[] = {0, 0, NAK, (uint16_t)(awaited + 1), (uint16_t)(awaited - 1), (uint16_t)(awaited + 256)};
    uint32_t length = once_in(g->t->c, awaited ? 5 : 2) ? PICK_OF(g->t->c, others) : awaited;
    play(g, length % 256);
    if (g->record[WORD_PHASE] == 10)
        play(g, or_other(g->t, length / 256, 16));
}

static void play_answer(lead *g, uint32_t awaited)
{
    static uint8_t answer[MOST_WORK];
    uint32_t left = awaited - g->record[WORD_PLACE];
    fill(g->t->c, answer, left);
    play_all(g, answer, left);
}

static void play_greeting(lead *g)
{
    static const uint8_t greeting[] = {0x02, 0x01, 0x00, 0x03};
    uint32_t place = g->record[WORD_PLACE];
    play(g, place == 1 || place == 2 ? or_other(g->t, greeting[place], 3) : or_nak(g->t, greeting[place]));
}

void play_host(trial *t, stream *s, uint32_t record[WORDS], const model_request *request,
               const model_memories *memories)
{
    lead g = {t, s, record, request, memories};
    uint32_t awaited = model_awaited(request), crc = model_crc16(request->payload, request->length);
    play_all(&g, NULL, 0);
    while (record[WORD_PHASE] != 17) {
        switch (record[WORD_PHASE]) {
        case 0: play_greeting(&g); break;
        case 5: play(&g, or_other(t, crc % 256, 12)); break;
        case 6: play(&g, or_other(t, high_byte(&g, crc), 12)); break;
        case 9: play_length(&g, awaited); break;
        case 10: play(&g, or_other(t, high_byte(&g, awaited), 8)); break;
        case 12: play_answer(&g, awaited); break;
        case 16: play(&g, or_other(t, 0x02, 4)); break;
        default: play(&g, or_nak(t, ACK)); break;
        }
    }
}
