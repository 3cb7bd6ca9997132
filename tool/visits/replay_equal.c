#include "due.h"
#include "exits.h"
#include "replay.h"
#include "say.h"
#include "words.h"

#include <stdio.h>

/* How the visit ends. */
typedef struct {
    size_t commands, left; /* `left`: bytes of the host that were not taken */
    bool runs;
    uint32_t address; /* at which code runs */
    text words;
} visit_end;

static visit_end end_of(const replay *r)
{
    walk w;
    visit_end e = {0};
    walk_begin(&w, &r->memories, r->visit.file);
    walk_on(&w, NULL, SIZE_MAX);
    e.commands = w.commands;
    e.left = stream_take(&w.host, NULL, SIZE_MAX);
    e.runs = walk_phase(&w).part == RUNNING;
    e.address = e.runs ? w.session.record[UND_RECORD_HELD] : 0;
    add_rest(&e.words, &w);
    if (e.left > 0) {
        text_add(&e.words, ", and ");
        add_count(&e.words, e.left);
        text_add(&e.words, " of the host after that %s not taken", e.left == 1 ? "was" : "were");
    }
    walk_end(&w);
    return e;
}

static void print_equal(const replay *r, const visit_end *e)
{
    recorded_counts c = counts_of(r);
    text sent = {0};
    add_count(&sent, c.host);
    printf("%s: equal: all %zu bytes of the device are what uartboot answers\n", r->visit.name, c.device);
    printf("  %zu entr%s, %s of the host, %zu command%s; at the end %s\n", c.entries, c.entries == 1 ? "y" : "ies",
           sent.chars, e->commands, e->commands == 1 ? "" : "s", e->words.chars);
    text_free(&sent);
}

static void print_equal_json(const replay *r, const visit_end *e)
{
    text t = {0};
    add_answer_json(&t, r);
    add_counts_json(&t, r);
    text_add(&t, ",\"commands\":%zu,\"running\":", e->commands);
    text_add(&t, e->runs ? "%u" : "null", e->address);
    text_add(&t, ",\"left\":%zu,\"words\":", e->left);
    text_add_json(&t, e->words.chars, e->words.length);
    printf("%s}\n", t.chars);
    text_free(&t);
}

int tell_equal(const replay *r)
{
    visit_end e = end_of(r);
    (say_json ? print_equal_json : print_equal)(r, &e);
    text_free(&e.words);
    return DONE;
}
