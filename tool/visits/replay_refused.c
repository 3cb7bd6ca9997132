#include "beside.h"
#include "exits.h"
#include "recorded_fault.h"
#include "replay.h"
#include "say.h"
#include "words.h"

#include <stdio.h>
#include <string.h>

/* Whether the library has refused the memories, before it has looked at the recording. */
static bool is_of_memories(uint32_t number)
{
    return number < UND_WRONG_RECORDING_MARK;
}

static void print_refused_json(const replay *r, const recorded_fault *f, const meaning *m)
{
    text t = {0};
    add_answer_json(&t, r);
    if (is_of_memories(m->number))
        text_add(&t, ",\"offset\":null");
    else
        text_add(&t, ",\"offset\":%zu", f->offset);
    text_add(&t, f->entry ? ",\"entry\":%zu" : ",\"entry\":null", f->entry);
    text_add(&t, f->entry ? ",\"begins\":%zu" : ",\"begins\":null", f->begins);
    text_add(&t, f->missing ? ",\"missing\":%zu" : ",\"missing\":null", f->missing);
    text_add_meaning(&t, m, REFUSED);
    printf("%s}\n", t.chars);
    text_free(&t);
}

static void add_path(text *t, const char *option, const char *path)
{
    text_add(t, " %s", option);
    text_add_path(t, path);
}

/* Those that state the memories of this replay. */
static void add_options(text *t, const replay *r)
{
    if (r->ram_file)
        add_path(t, "--ram-from ", r->ram_file);
    else if (r->ram_length != UND_RAM_MAX)
        text_add(t, " --ram %zu", r->ram_length);
    if (r->work_length != UND_WORK_MAX)
        text_add(t, " --work %zu", r->work_length);
    if (r->flash_file)
        add_path(t, "--flash ", r->flash_file);
}

/* Of an entry that is cut short: how to replay what comes before it. */
static void add_before(text *t, const replay *r, size_t begins)
{
    text beside = {0};
    text_add(t, "; a player that was killed, or a full disk, leaves such an end: ");
    if (begins == UND_RECORDING_HEAD) {
        text_add(t, "no whole entry comes before it");
        return;
    }
    text_add(t, "replay what comes before it with: head -c %zu", begins);
    if (strcmp(r->visit.path, "-") != 0)
        add_path(t, "", r->visit.path);
    text_add(t, " | undalisho replay -");
    add_options(t, r);
    if (add_beside(&beside, r))
        text_add(t, "; %s", beside.chars);
    text_free(&beside);
}

static void add_next(text *t, const replay *r, const recorded_fault *f)
{
    bool of_file = r->answer.number == UND_BAD_RAM && r->ram_file;
    text_add(t, "%s", of_file ? "give --ram-from a file of 1 to 131072 bytes" : meaning_of(r->answer.number)->next);
    if (r->answer.number == UND_SHORT_ENTRY)
        add_before(t, r, f->begins);
}

int tell_refused(const replay *r)
{
    const meaning *m = meaning_of(r->answer.number);
    recorded_fault f = {0};
    text about = {0}, words = {0}, next = {0};
    text_add(&about, "%s", is_of_memories(m->number) ? r->stated.chars : r->visit.name);
    if (!is_of_memories(m->number)) {
        text_add(&about, ": ");
        f = find_fault(r->visit.file, m->number, &about);
    }
    text_add(&words, "%s (%s)", m->what, about.chars);
    add_next(&next, r, &f);
    if (say_json)
        print_refused_json(r, &f, &(meaning){m->number, words.chars, next.chars});
    say_json = false;
    refuse_with(m->number, next.chars, "%s", about.chars);
    text_free(&about);
    text_free(&words);
    text_free(&next);
    return REFUSED;
}
