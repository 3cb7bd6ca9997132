/* Cases of version fields: their rank, and the order of two. */
#include "lend.h"
#include "model.h"
#include "seen.h"
#include "texts.h"
#include "trial.h"
#include "undalisho.h"

#include <string.h>

_Static_assert(sizeof(und_ranked) == sizeof(model_ranked), "a rank of the model has as many numbers");

/* The library's lent field, and the same bytes for the model. */
typedef struct {
    shelf held;
    uint8_t *lent;
    uint8_t kept[VERSION_FIELD + 8];
    size_t length;
} field;

static void same_rank(trial *t, const field *f)
{
    und_ranked got = und_rank(f->length == 0 ? NULL : f->lent, f->length);
    model_ranked want = model_rank(f->kept, f->length);
    seen(SEEN_RANK_NUMBER, want.number);
    same_number(t, "rank's number", got.number, want.number);
    for (int k = 0; k < RANK_NUMBERS; k++)
        same_number(t, "rank", got.rank[k], want.rank[k]);
}

static void lend_field(trial *t, field *f, const uint8_t *text, bool at_end)
{
    if (!f->held.first)
        shelf_build(&f->held, sizeof f->kept);
    f->length = once_in(t->c, 24) ? pick(t->c, sizeof f->kept) : VERSION_FIELD;
    f->lent = shelf_lend(&f->held, f->length, at_end);
    memcpy(f->kept, text, sizeof f->kept);
    memcpy(f->lent, text, f->length);
    tell_bytes(t, "field", f->lent, f->length);
}

void version_case(trial *t)
{
    static field fields[2];
    field *a = &fields[0], *b = &fields[1];
    uint8_t text[sizeof a->kept];
    bool at_end = once_in(t->c, 2);
    make_version(t, text, sizeof text);
    lend_field(t, a, text, at_end);
    if (!once_in(t->c, 6))
        make_version(t, text, sizeof text);
    lend_field(t, b, text, at_end);

    same_rank(t, a);
    same_rank(t, b);
    und_ordered got = und_order(a->lent, a->length, b->lent, b->length);
    model_ordered want = model_order(a->kept, a->length, b->kept, b->length);
    seen(SEEN_ORDER_NUMBER, want.number);
    same_number(t, "order's number", got.number, want.number);
    same_number(t, "order", (uint64_t)got.order, (uint64_t)want.order);
    for (field *f = fields; f < fields + 2; f++) {
        same_bytes(t, "lent field", f->lent, f->kept, f->length);
        if (!shelf_intact(&f->held))
            differ(t, "a byte beside a field was written");
    }
    t->calls += 3;
}
