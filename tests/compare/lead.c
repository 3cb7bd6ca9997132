#include "lead.h"

#include <stdlib.h>

void stream_add(stream *s, uint8_t byte)
{
    if (s->length == s->capacity) {
        s->capacity = s->capacity * 2 + 256;
        s->bytes = realloc(s->bytes, s->capacity);
        if (!s->bytes)
            abort();
    }
    s->bytes[s->length++] = byte;
}

void stream_add_all(stream *s, const uint8_t *bytes, size_t count)
{
    for (size_t i = 0; i < count; i++)
        stream_add(s, bytes[i]);
}

void play_all(lead *g, const uint8_t *bytes, size_t count)
{
    static uint8_t replies[70000];
    model_line line = {bytes, count, 0, replies, sizeof replies, 0};
    stream_add_all(g->s, bytes, count);
    call_model(g->record[WORD_KIND], g->record, &line, g->request, g->memories);
}

void play(lead *g, uint32_t byte)
{
    uint8_t b = (uint8_t)byte;
    play_all(g, &b, 1);
}

uint32_t or_other(trial *t, uint32_t right, uint32_t one_in)
{
    static const uint8_t others[] = {0x15, 0x01, 0x00, 0x02, 0x06, 0xFF};
    if (!once_in(t->c, one_in))
        return right;
    return once_in(t->c, 2) ? pick(t->c, 256) : PICK_OF(t->c, others);
}
