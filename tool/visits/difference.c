#include "difference.h"

#include "advice.h"
#include "due.h"

/* What is recorded around the place. */
static void find_recorded(difference *d, content file)
{
    stream device = stream_of(file, UND_ENTRY_DEVICE);
    around *a = &d->recorded;
    stream_take(&device, NULL, d->place - d->before);
    a->count = stream_take(&device, a->bytes, d->before);
    d->offset = stream_ready(&device) ? device.at : file.length;
    a->count += stream_take(&device, a->bytes + a->count, SHOWN_AFTER);
    a->more = stream_ready(&device) > 0;
}

/* What is expected from the place on; before it, what is recorded is. */
static void find_expected(difference *d, walk *w)
{
    uint8_t one;
    around *a = &d->expected;
    *a = d->recorded;
    a->count = d->before + walk_on(w, a->bytes + d->before, SHOWN_AFTER);
    a->more = walk_on(w, &one, 1) > 0;
}

void find_difference(difference *d, walk *w, size_t place)
{
    *d = (difference){.place = place, .before = place < SHOWN_BEFORE ? place : SHOWN_BEFORE};
    find_recorded(d, w->host.file);
    walk_on(w, NULL, place);
    found_reply f = {w, d->recorded.bytes + d->before, d->recorded.count - d->before, place};
    d->command = w->commands;
    d->has_opcode = has_opcode(w);
    d->opcode = opcode_of(w);
    add_where(&d->where, w);
    (walk_phase(w).sends ? add_reply : add_rest)(&d->due, w);
    d->found = found_meaning(&f);
    add_advice(&d->next, &f);
    find_expected(d, w);
}

void difference_end(difference *d)
{
    text_free(&d->where);
    text_free(&d->due);
    text_free(&d->next);
}
