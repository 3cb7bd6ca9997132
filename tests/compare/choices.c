#include "choices.h"

#include <stdlib.h>
#include <string.h>

/* splitmix64 */
uint64_t next_random(uint64_t *state)
{
    uint64_t z = *state += 0x9E3779B97F4A7C15u;
    z = (z ^ (z >> 30)) * 0xBF58476D1CE4E5B9u;
    z = (z ^ (z >> 27)) * 0x94D049BB133111EBu;
    return z ^ (z >> 31);
}

void choices_from_seed(choices *c, uint64_t seed)
{
    c->count = c->at = 0;
    c->given = false;
    c->state = seed;
}

static void reserve(choices *c, size_t count)
{
    if (count <= c->capacity)
        return;
    c->capacity = count * 2 + 64;
    c->values = realloc(c->values, c->capacity * sizeof *c->values);
    if (!c->values)
        abort();
}

void choices_from_list(choices *c, const uint32_t *values, size_t count)
{
    reserve(c, count + 1);
    if (count)
        memcpy(c->values, values, count * sizeof *values);
    c->count = count;
    c->at = 0;
    c->given = true;
}

void choices_free(choices *c)
{
    free(c->values);
    memset(c, 0, sizeof *c);
}

uint32_t pick(choices *c, uint32_t n)
{
    if (n <= 1)
        return 0;
    if (c->given)
        return c->at < c->count ? c->values[c->at++] % n : 0;
    reserve(c, c->count + 1);
    uint32_t value = (uint32_t)(next_random(&c->state) >> 32) % n;
    c->values[c->count++] = value;
    c->at = c->count;
    return value;
}

bool once_in(choices *c, uint32_t n)
{
    return pick(c, n) == n - 1;
}
