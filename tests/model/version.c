/* Version text: one to four decimal numbers with dots between, padded with 00 to 16 bytes. */
#include "model.h"

#include <string.h>

static const model_ranked refused = {61, {0}};

/* The number that a piece of text says, or -1. */
static long number_of(const char *text, size_t length)
{
    if (length < 1 || length > 5 || strspn(text, "0123456789") < length)
        return -1;
    if (text[0] == '0' && length > 1)
        return -1;
    long value = 0;
    for (size_t i = 0; i < length; i++)
        value = value * 10 + (text[i] - '0');
    return value <= 65535 ? value : -1;
}

model_ranked model_rank(const uint8_t *field, size_t length)
{
    if (length != VERSION_FIELD)
        return refused;
    char text[VERSION_FIELD + 1] = {0};
    memcpy(text, field, VERSION_FIELD);
    for (size_t i = strlen(text); i < VERSION_FIELD; i++)
        if (text[i] != 0)
            return refused;

    model_ranked given = {0, {0}};
    const char *piece = text;
    for (int k = 0; k < TEXT_NUMBERS; k++) {
        size_t end = strcspn(piece, ".");
        long value = number_of(piece, end);
        if (value < 0)
            return refused;
        given.rank[k] = (uint32_t)value;
        if (piece[end] == 0)
            return given;
        piece += end + 1;
    }
    return refused;
}

model_ordered model_order(const uint8_t *a, size_t a_length, const uint8_t *b, size_t b_length)
{
    model_ranked left = model_rank(a, a_length), right = model_rank(b, b_length);
    if (left.number || right.number)
        return (model_ordered){61, 0};
    for (int k = 0; k < RANK_NUMBERS; k++)
        if (left.rank[k] != right.rank[k])
            return (model_ordered){0, left.rank[k] < right.rank[k] ? -1 : 1};
    return (model_ordered){0, 0};
}
