/* undalisho load: loads code through the boot ROM's line, and starts it. */
#include "code.h"
#include "commands.h"
#include "frame.h"
#include "loading.h"
#include "openings.h"
#include "options.h"
#include "say.h"

#include <unistd.h>

/* In seconds. */
enum { USUAL_SECONDS = 10, MOST_SECONDS = 86400 };

static bool are_sound(const loading *l)
{
    const visit *v = &l->log.visit;
    if (!v->port) {
        misuse("--port DEVICE is missing: the line to the monitor");
        return false;
    }
    if (l->seconds == 0 || l->seconds > MOST_SECONDS) {
        misuse("--wait is from 1 to %d seconds", MOST_SECONDS);
        return false;
    }
    const file_use uses[] = {{"CODE", v->file, false}, {"--port", v->port, false}, {"--log", l->log.path, true}};
    return is_baud(v->baud) && are_separate(uses, sizeof uses / sizeof *uses);
}

static bool read_load_options(int count, char **words, loading *l, bool *raw)
{
    visit *v = &l->log.visit;
    const option options[] = {
        {"--kind", WORD, &v->kind},    {"--port", WORD, &v->port},
        {"--baud", NUMBER, &v->baud},  {"--wait", NUMBER, &l->seconds},
        {"--raw", FLAG, raw},          {"--label", WORD, &v->label},
        {"--log", WORD, &l->log.path}, {"--quiet", FLAG, &l->log.quiet},
        {"--json", FLAG, &say_json},   {NULL, FLAG, NULL},
    };
    if (read_options(count, words, options, 1, 1) < 0 || !read_kind(v->kind, &l->kind))
        return false;
    v->file = words[0];
    return are_sound(l);
}

/* Names what the code file has left out. */
static void tell_gaps(event_log *l, const code_file *c)
{
    for (size_t i = 0; i < c->gap_count; i++) {
        text t = {0};
        add_gap(&t, &c->gaps[i]);
        log_note(l, "gap", l->visit.file, "%s", t.chars);
        text_free(&t);
    }
}

/* Reads the code and opens all that a load needs, the line last. Gives DONE, or the exit code after it has said what is
   wrong. */
static int prepare(loading *l, bool raw)
{
    visit *v = &l->log.visit;
    code_file file;
    int code = read_code(v->file, raw, &file);
    if (code == DONE)
        code = make_frame(v->file, file.bytes, l->kind, &l->frame);
    if (code == DONE)
        code = catch_signals(false);
    if (code == DONE)
        code = open_log(&l->log);
    if (code != DONE)
        return code;
    v->content = file.bytes;
    log_begin(&l->log, "loading", v->file, "loading");
    tell_gaps(&l->log, &file);
    return open_port(&l->line, v->port, v->baud);
}

/* Says that the code runs, even with --quiet. */
static void tell_running(event_log *l)
{
    text t = {0};
    text_add(&t, "running: %zu bytes of code, checksum right", l->visit.content.length);
    l->quiet = false;
    log_end(l, exit_word(DONE), exit_word(DONE), t.chars);
    text_free(&t);
}

int run_load(int count, char **words)
{
    static loading l = {.seconds = USUAL_SECONDS,
                        .log = {.fd = -1, .outlet = {.later = true}, .visit = {.baud = USUAL_BAUD}}};
    bool raw = false;
    if (!read_load_options(count, words, &l, &raw))
        return MISUSED;
    int code = prepare(&l, raw);
    if (code == DONE) {
        l.bar = isatty(STDERR_FILENO) && !l.log.quiet && !say_json;
        code = load_frame(&l);
        if (code == DONE)
            tell_running(&l.log);
        line_close(&l.line);
    }
    log_close(&l.log);
    return log_exit(&l.log, code);
}
