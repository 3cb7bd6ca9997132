#include "ranking.h"

#include "memory.h"

#include <stdlib.h>

/* By their ranks, number by number: above 0 where a is lower. */
static int compare_ranks(const uint32_t *a, const uint32_t *b)
{
    for (size_t i = 0; i < UND_RANK_NUMBERS; i++)
        if (a[i] != b[i])
            return a[i] < b[i] ? 1 : -1;
    return 0;
}

/* Equal ones stay in the order in which they came. */
static int compare(const void *one, const void *other)
{
    const ranked_version *a = one, *b = other;
    int ranks = compare_ranks(a->rank, b->rank);
    return ranks != 0 ? ranks : a->index < b->index ? -1 : 1;
}

/* Tells the well-formed versions and the others apart. */
static void sift(ranking *r, size_t count)
{
    for (size_t i = 0; i < count; i++) {
        const uint32_t *entry = r->ranks + i * UND_TRAY_ENTRY;
        if (entry[UND_RANK_NUMBERS] == 0)
            r->sorted[r->count++] = (ranked_version){.rank = entry, .index = i};
        else
            r->malformed[r->malformed_count++] = i;
    }
}

static void give_places(ranking *r)
{
    for (size_t i = 0; i < r->count; i++) {
        ranked_version *v = &r->sorted[i], *before = i > 0 ? v - 1 : NULL;
        bool equal = before && compare_ranks(before->rank, v->rank) == 0;
        v->place = equal ? before->place : before ? before->place + 1 : 1;
        v->equal = equal ? before->equal : v->index;
    }
}

ranking rank_tray(const tray *t)
{
    size_t room = t->count * UND_TRAY_ENTRY;
    ranking r = {.ranks = memory_of(room * sizeof *r.ranks)};
    r.number = und_rank_tray(t->fields.bytes, t->fields.length, r.ranks, room);
    if (r.number != 0)
        return r;
    r.sorted = memory_of(t->count * sizeof *r.sorted);
    r.malformed = memory_of(t->count * sizeof *r.malformed);
    sift(&r, t->count);
    qsort(r.sorted, r.count, sizeof *r.sorted, compare);
    give_places(&r);
    return r;
}
