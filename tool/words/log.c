#include "log.h"

#include "files.h"
#include "say.h"
#include "signals.h"

#include <errno.h>
#include <fcntl.h>
#include <stdarg.h>
#include <stdio.h>
#include <string.h>
#include <time.h>
#include <unistd.h>

/* How many bytes of an event are shown to people, and the width of these in hexadecimal. */
enum { SHOWN = 8, HEX_WIDTH = 3 * SHOWN - 1 };

bool log_open(event_log *l)
{
    l->fd = -1;
    if (!l->path)
        return true;
    l->fd = open(l->path, O_WRONLY | O_APPEND | O_CREAT | O_CLOEXEC, 0666);
    return l->fd >= 0;
}

static void close_file(event_log *l)
{
    if (l->fd >= 0 && close(l->fd) != 0)
        l->failed = true;
    l->fd = -1;
}

static const char *sender_name(sender from)
{
    return from == FROM_HOST ? "host" : from == FROM_CHIP ? "chip" : "";
}

/* The time of day here, or date and time in UTC. */
static void add_time(text *t, bool utc)
{
    char words[32];
    struct timespec now;
    struct tm parts;
    clock_gettime(CLOCK_REALTIME, &now);
    if (utc)
        gmtime_r(&now.tv_sec, &parts);
    else
        localtime_r(&now.tv_sec, &parts);
    strftime(words, sizeof words, utc ? "%Y-%m-%dT%H:%M:%S" : "%H:%M:%S", &parts);
    text_add(t, "%s.%03ld%s", words, now.tv_nsec / 1000000, utc ? "Z" : "");
}

static void add_for_people(text *t, const event *e)
{
    text hex = {0};
    bool whole = e->count <= SHOWN;
    text_add(&hex, "%s", "");
    text_add_hex(&hex, e->bytes, whole ? e->count : SHOWN - 3, " ");
    if (!whole)
        text_add(&hex, " .. %02X", e->bytes[e->count - 1]);
    add_time(t, false);
    text_add(t, " %-4s %-*s %s%s\n", sender_name(e->from), HEX_WIDTH, hex.chars, e->words,
             e->more ? e->more->chars : "");
    text_free(&hex);
}

static void add_for_machines(text *t, const event *e)
{
    text_add(t, "{\"time\":\"");
    add_time(t, true);
    text_add(t, "\",\"event\":\"%s\"", e->name);
    if (e->from != FROM_NOBODY) {
        text_add(t, ",\"from\":\"%s\",\"count\":%zu,\"bytes\":\"", sender_name(e->from), e->count);
        text_add_hex(t, e->bytes, e->count, "");
        text_add(t, "\"");
    }
    if (e->refused) {
        const meaning *m = e->refused;
        text_add(t, ",\"reason\":%u,\"cause\":", m->number);
        text_add_json(t, m->what, strlen(m->what));
        text_add(t, ",\"next\":");
        text_add_json(t, m->next, strlen(m->next));
    }
    if (e->path) {
        text_add(t, ",\"path\":");
        text_add_json(t, e->path, strlen(e->path));
    }
    if (e->said) {
        text_add(t, ",");
        add_saying(t, e->said);
    } else {
        text_add(t, ",\"words\":");
        text_add_json(t, e->words, strlen(e->words));
    }
    text_add(t, "%s}\n", e->fields ? e->fields->chars : "");
}

static bool is_full(int reason)
{
    return reason == ENOSPC || reason == EDQUOT || reason == EFBIG;
}

static void say_loss(const char *what, const char *where, int reason, const char *next)
{
    fprintf(stderr, "undalisho: the %s cannot be written to %s: %s\n  next: %s; the session goes on without it\n", what,
            where, strerror(reason), next);
}

static void tell_failure(event_log *l, const char *where)
{
    if (!l->failed && !signals_stop())
        say_loss("log", where, errno, "make room there");
    l->failed = l->failed || !signals_stop();
}

void log_close(event_log *l)
{
    if (!outlet_end(&l->outlet))
        tell_failure(l, "standard output");
    close_file(l);
}

void log_event(event_log *l, const event *e)
{
    text t = {0};
    if (l->json)
        add_for_machines(&t, e);
    else
        add_for_people(&t, e);
    if ((!l->quiet || e->loud) && (fflush(stdout) != 0 || !outlet_write(&l->outlet, t.chars, t.length))) {
        l->quiet = true;
        tell_failure(l, "standard output");
    }
    if (l->fd >= 0 && !write_until_stopped(l->fd, t.chars, t.length)) {
        tell_failure(l, l->path);
        close_file(l);
    }
    text_free(&t);
}

void log_note(event_log *l, const char *name, const char *path, const char *format, ...)
{
    text words = {0};
    va_list args;
    va_start(args, format);
    text_add_args(&words, format, args);
    va_end(args);
    log_event(l, &(event){.from = FROM_NOBODY, .name = name, .words = words.chars, .path = path});
    text_free(&words);
}

void log_gone(event_log *l, const char *name, const char *what, const char *path)
{
    text words = {0};
    text_add(&words, "the %s is no longer in %s: another program has removed or replaced it", what, path);
    fprintf(stderr, "undalisho: %s\n  next: name a file that nobody else changes, and play again\n", words.chars);
    l->lost = true;
    log_note(l, name, path, "%s", words.chars);
    text_free(&words);
}

void log_loss(event_log *l, const char *name, const char *what, const char *path)
{
    int reason = errno;
    say_loss(what, path, reason, is_full(reason) ? "make room there" : "name another file");
    l->lost = true;
    log_note(l, name, path, "the %s cannot be written to %s: %s; it ends here", what, path, strerror(reason));
}

int log_exit(const event_log *l, int code)
{
    return code == DONE && (l->failed || l->lost) ? FAILED : code;
}

void log_begin(event_log *l, const char *name, const char *path, const char *words)
{
    text more = {0}, fields = {0};
    l->begun = true;
    visit_add_begin(&l->visit, &more, &fields);
    log_event(l, &(event){.name = name, .words = words, .path = path, .more = &more, .fields = &fields});
    text_free(&more);
    text_free(&fields);
}

/* The last event, with the sum of the visit; before it the first, where the visit has ended before it began. */
static void log_last(event_log *l, event last, const char *result)
{
    text more = {0}, fields = {0};
    if (!l->begun)
        log_begin(l, "begin", NULL, "begin");
    visit_add_end(&l->visit, result, &more, &fields);
    if (!last.said)
        text_add(&fields, ",\"exit\":%d", log_exit(l, DONE));
    last.more = &more;
    last.fields = &fields;
    log_event(l, &last);
    text_free(&more);
    text_free(&fields);
}

void log_end(event_log *l, const char *name, const char *result, const char *words)
{
    log_last(l, (event){.name = name, .words = words}, result);
}

static event_log *sayings_log;

/* People have it on standard error already. */
static void log_saying(const saying *s)
{
    event_log *l = sayings_log;
    bool quiet = l->quiet;
    text words = {0};
    text_add(&words, "%s (next: %s)", s->words, s->next);
    l->quiet = !l->json;
    log_last(l, (event){.name = exit_word(s->code), .words = words.chars, .said = s}, exit_word(s->code));
    l->quiet = quiet;
    text_free(&words);
}

void log_visit(event_log *l)
{
    sayings_log = l;
    say_also = log_saying;
    visit_begin(&l->visit);
}
