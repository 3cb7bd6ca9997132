#include "beside.h"
#include "difference.h"
#include "exits.h"
#include "replay.h"
#include "say.h"
#include "words.h"

#include <stdio.h>
#include <string.h>

static void print_row(const char *name, const difference *d, const around *a)
{
    text t = {0};
    text_add(&t, "  %s  %s", name, d->place > d->before ? ".. " : "");
    text_add_hex(&t, a->bytes, a->count, " ");
    printf("%s%s%s\n", t.chars, a->count ? " " : "", a->more ? ".." : "end");
    text_free(&t);
}

static void print_mark(const difference *d)
{
    size_t before = strlen("  expected  ") + (d->place > d->before ? strlen(".. ") : 0) + 3 * d->before;
    printf("%*s^^\n", (int)before, "");
}

/* The byte at the place, and what it means. */
static void print_meaning(const char *name, const difference *d, const around *a, const char *words)
{
    printf("  %s ", name);
    if (a->count > d->before)
        printf("%02X", a->bytes[d->before]);
    else
        printf("nothing");
    printf("%s%s\n", words ? ": " : "", words ? words : "");
}

static void print_different(const replay *r, const difference *d)
{
    text offset = {0};
    add_offset(&offset, d->offset);
    printf("%s: different at place %zu of the device's bytes, counted from 0: %s%s in the file\n", r->visit.name,
           d->place, offset.chars, d->recorded.count > d->before ? "" : ", the end,");
    text_free(&offset);
    printf("  %s\n\n", d->where.chars);
    print_row("expected", d, &d->expected);
    print_row("recorded", d, &d->recorded);
    print_mark(d);
    print_meaning("expected", d, &d->expected, d->due.chars);
    print_meaning("recorded", d, &d->recorded, d->found);
    printf("  played with %s\n", r->stated.chars);
}

static void add_bytes_json(text *t, const char *name, const around *a)
{
    text_add(t, ",\"%s\":\"", name);
    text_add_hex(t, a->bytes, a->count, "");
    text_add(t, "\"");
}

static void print_different_json(const replay *r, const difference *d, const char *words)
{
    text t = {0};
    add_answer_json(&t, r);
    text_add(&t, ",\"offset\":%zu", d->offset);
    add_counts_json(&t, r);
    text_add(&t, ",\"first\":%zu", d->place - d->before);
    add_bytes_json(&t, "expected", &d->expected);
    add_bytes_json(&t, "recorded", &d->recorded);
    text_add(&t, ",\"command\":%zu,\"opcode\":", d->command);
    text_add(&t, d->has_opcode ? "%u" : "null", d->opcode);
    text_add_json_word(&t, "name", d->has_opcode ? opcode_name(d->opcode) : NULL);
    text_add_json_word(&t, "where", d->where.chars);
    text_add_json_word(&t, "due", d->due.chars);
    text_add_json_word(&t, "found", d->found);
    text_add_meaning(&t, &(meaning){0, words, d->next.chars}, REFUSED);
    printf("%s}\n", t.chars);
    text_free(&t);
}

/* Without the memories that the visit found, a difference says nothing. */
static void advise_beside(difference *d, const replay *r)
{
    text next = {0};
    if (add_beside(&next, r)) {
        text_free(&d->next);
        d->next = next;
    }
}

int tell_different(const replay *r)
{
    walk w;
    difference d;
    text words = {0};
    walk_begin(&w, &r->memories, r->visit.file);
    find_difference(&d, &w, r->answer.place);
    advise_beside(&d, r);
    text_add(&words, "the recording differs from what uartboot answers (%s, place %zu)", r->visit.name, d.place);
    if (say_json)
        print_different_json(r, &d, words.chars);
    else
        print_different(r, &d);
    say_json = false;
    refuse_unnumbered(d.next.chars, "%s", words.chars);
    text_free(&words);
    difference_end(&d);
    walk_end(&w);
    return REFUSED;
}
