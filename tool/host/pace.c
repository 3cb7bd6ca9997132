#include "pace.h"

#include "clock.h"
#include "line.h"

/* How long bytes need, rounded up. */
static long long needs(const pace *p, size_t count)
{
    unsigned long long bits = (unsigned long long)count * BITS_OF_BYTE * 1000;
    return (long long)((bits + p->baud - 1) / p->baud);
}

void pace_begin(pace *p)
{
    p->begun = milliseconds_now();
    p->given = 0;
}

void pace_add(pace *p, size_t count)
{
    long long now = milliseconds_now();
    if (p->left < now)
        p->left = now;
    p->left += needs(p, count);
    p->given += count;
}

long long pace_rest(const pace *p)
{
    long long rest = p->left - milliseconds_now();
    return rest > 0 ? rest : 0;
}

/* The gaps are taken to be a quarter of the time. */
long long pace_arrival(const pace *p)
{
    long long rest = pace_rest(p), taken = milliseconds_now() - p->begun;
    return (taken > needs(p, p->given) ? taken : rest) * 5 / 4;
}
