/* A version's rank in plain C, and those of a tray. */
#include "plain.h"

#include <string.h>

/* Reads the decimal number at *at and moves past it; -1 where there is none, with a leading zero or above 65,535. */
static int32_t decimal_at(const uint8_t *field, size_t *at)
{
    size_t start = *at;
    int32_t value = 0;
    while (*at < 16 && field[*at] >= '0' && field[*at] <= '9') {
        if (*at > start && value == 0)
            return -1;
        value = value * 10 + (field[*at] - '0');
        if (value > 65535)
            return -1;
        ++*at;
    }
    return *at == start ? -1 : value;
}

static int all_zero(const uint8_t *field, size_t at)
{
    while (at < 16 && field[at] == 0)
        at++;
    return at == 16;
}

/* Reads a field's numbers into a rank of zeros. Gives 0, or 61 where the text is malformed. */
static uint32_t read_rank(const uint8_t *field, uint32_t *rank)
{
    size_t at = 0;
    for (int place = 0; place < TEXT_NUMBERS; place++) {
        int32_t value = decimal_at(field, &at);
        if (value < 0)
            return UND_MALFORMED_VERSION;
        rank[place] = (uint32_t)value;
        if (at == 16 || field[at] != '.')
            return all_zero(field, at) ? 0 : UND_MALFORMED_VERSION;
        at++;
    }
    return UND_MALFORMED_VERSION;
}

und_ranked plain_rank(const uint8_t *field, size_t field_len)
{
    const und_ranked refused = {UND_MALFORMED_VERSION, {0}};
    und_ranked ranked = {0, {0}};
    if (field_len != 16 || read_rank(field, ranked.rank) != 0)
        return refused;
    return ranked;
}

static uint32_t tray_refusal(size_t fields_len, size_t ranks_len)
{
    size_t count = fields_len / UND_VERSION_FIELD;
    if (fields_len % UND_VERSION_FIELD != 0 || count > UND_TRAY_MAX)
        return UND_BAD_TRAY;
    return ranks_len < count * UND_TRAY_ENTRY ? UND_SHORT_RANKS : 0;
}

static void put_entry(uint32_t *entry, und_ranked ranked)
{
    memcpy(entry, ranked.rank, sizeof ranked.rank);
    entry[UND_RANK_NUMBERS] = ranked.number;
}

typedef und_ranked ranker(const uint8_t *field, size_t field_len);

static uint32_t rank_each(ranker *rank, const uint8_t *fields, size_t fields_len, uint32_t *ranks, size_t ranks_len)
{
    uint32_t number = tray_refusal(fields_len, ranks_len);
    if (number != 0)
        return number;
    for (size_t at = 0; at < fields_len; at += UND_VERSION_FIELD, ranks += UND_TRAY_ENTRY)
        put_entry(ranks, rank(fields + at, UND_VERSION_FIELD));
    return 0;
}

uint32_t plain_rank_tray(const uint8_t *fields, size_t fields_len, uint32_t *ranks, size_t ranks_len)
{
    return rank_each(plain_rank, fields, fields_len, ranks, ranks_len);
}

uint32_t plain_rank_tray_by_calls(const uint8_t *fields, size_t fields_len, uint32_t *ranks, size_t ranks_len)
{
    return rank_each(und_rank, fields, fields_len, ranks, ranks_len);
}
