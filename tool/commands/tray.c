/* undalisho tray: the versions of a list, the highest first. */
#include "tray.h"

#include "commands.h"
#include "exits.h"
#include "form.h"
#include "options.h"
#include "ranking.h"
#include "say.h"
#include "table.h"
#include "words.h"

static int refuse_tray(const tray *t, uint32_t number)
{
    size_t rest = t->fields.length % UND_VERSION_FIELD;
    const char *form = other_form(t), *split = form ? form : "split the list, or see that it is the one that was meant";
    if (number != UND_BAD_TRAY)
        return refuse(number, "%s", t->name);
    if (rest != 0)
        return refuse_with(number, form ? form : "see that this is the file that was meant, and all of it",
                           "%s has %zu bytes, %zu too many or %zu too few", t->name, t->fields.length, rest,
                           UND_VERSION_FIELD - rest);
    if (t->lines)
        return refuse_with(number, split, "%s has more than %d versions", t->name, UND_TRAY_MAX);
    return refuse_with(number, split, "%s has more than %d fields of %d bytes", t->name, UND_TRAY_MAX,
                       UND_VERSION_FIELD);
}

/* What to do about malformed versions, if there are any. */
static const char *advice(const tray *t, const ranking *r)
{
    if (r->malformed_count == 0)
        return NULL;
    const char *next = r->count == 0 ? other_form(t) : NULL;
    if (next)
        return next;
    text usual = {0};
    text_add(&usual, "%s%s", meaning_of(UND_MALFORMED_VERSION)->next,
             t->lines ? "" : "; what a field has after its text must be 00");
    return usual.chars;
}

int run_tray(int count, char **words)
{
    bool is_text = false;
    const option options[] = {{"--text", FLAG, &is_text}, {"--json", FLAG, &say_json}, {NULL, FLAG, NULL}};
    tray t;
    count = read_options(count, words, options, 0, 1);
    if (count < 0)
        return MISUSED;
    int code = read_tray(&t, count > 0 ? words[0] : "-", is_text);
    if (code != DONE)
        return code;
    ranking r = rank_tray(&t);
    if (r.number != 0)
        return refuse_tray(&t, r.number);
    (say_json ? print_tray_json : print_tray)(&t, &r, advice(&t, &r));
    return DONE;
}
