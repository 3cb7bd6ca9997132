#include "shrink.h"

#include "clock.h"

#include <stdlib.h>
#include <string.h>

typedef struct {
    uint32_t *best;
    size_t count;
    differs_with still;
    double until;
} search;

/* Keeps a list that still differs. */
static bool keep(search *s, const uint32_t *values, size_t count)
{
    choices c = {0};
    choices_from_list(&c, values, count);
    bool good = s->still(&c);
    if (good) {
        s->count = c.at < count ? c.at : count;
        memcpy(s->best, values, s->count * sizeof *values);
    }
    choices_free(&c);
    return good;
}

/* Leaves out, or sets to 0, `size` numbers at each place in turn. */
static bool pass(search *s, size_t size, bool leave_out)
{
    bool better = false;
    uint32_t *trial = malloc((s->count + 1) * sizeof *trial);
    for (size_t at = 0; at + size <= s->count && seconds_now() < s->until;) {
        size_t count = leave_out ? s->count - size : s->count;
        memcpy(trial, s->best, s->count * sizeof *trial);
        if (leave_out)
            memmove(trial + at, trial + at + size, (s->count - at - size) * sizeof *trial);
        else
            memset(trial + at, 0, size * sizeof *trial);
        bool same = !leave_out && memcmp(trial, s->best, count * sizeof *trial) == 0;
        bool kept = !same && keep(s, trial, count);
        better |= kept;
        at += kept && leave_out ? 0 : size;
    }
    free(trial);
    return better;
}

/* Halves each number, and takes one from it, as long as that still differs. */
static bool lower(search *s)
{
    bool better = false;
    for (size_t at = 0; at < s->count && seconds_now() < s->until; at++)
        for (int how = 0; how < 2 && seconds_now() < s->until; how++) {
            uint32_t *trial = malloc((s->count + 1) * sizeof *trial);
            memcpy(trial, s->best, s->count * sizeof *trial);
            uint32_t old = trial[at];
            trial[at] = how == 0 ? old / 2 : old - 1;
            bool kept = old > 0 && keep(s, trial, s->count);
            better |= kept;
            free(trial);
            if (kept)
                how = -1;
            if (kept && at >= s->count)
                return better;
        }
    return better;
}

void shrink(choices *c, differs_with still, double seconds)
{
    search s = {malloc((c->count + 1) * sizeof(uint32_t)), c->count, still, seconds_now() + seconds};
    memcpy(s.best, c->values, c->count * sizeof *c->values);
    bool better = true;
    while (better && seconds_now() < s.until) {
        better = false;
        for (size_t size = s.count; size > 0; size /= 2) {
            better |= pass(&s, size, true);
            better |= pass(&s, size, false);
        }
        better |= lower(&s);
    }
    choices_from_list(c, s.best, s.count);
    free(s.best);
}
