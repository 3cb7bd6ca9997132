/* undalisho play: the program is the monitor, until code runs. */
#include "commands.h"
#include "exits.h"
#include "link.h"
#include "memories.h"
#include "monitor.h"
#include "openings.h"
#include "options.h"
#include "recording.h"
#include "say.h"
#include "signals.h"

#include <errno.h>
#include <string.h>

typedef struct {
    const char *kind, *flash, *save_ram, *port, *link;
    unsigned long ram, work, baud;
} play_options;

static bool read_play_options(int count, char **words, play_options *o, monitor *m)
{
    const option options[] = {
        {"--kind", WORD, &o->kind},
        {"--then-uartboot", FLAG, &m->then_uartboot},
        {"--ram", NUMBER, &o->ram},
        {"--flash", WORD, &o->flash},
        {"--work", NUMBER, &o->work},
        {"--save-ram", WORD, &o->save_ram},
        {"--port", WORD, &o->port},
        {"--baud", NUMBER, &o->baud},
        {"--link", WORD, &o->link},
        {"--label", WORD, &m->log.visit.label},
        {"--log", WORD, &m->log.path},
        {"--quiet", FLAG, &m->log.quiet},
        {"--json", FLAG, &say_json},
        {"--record", WORD, &m->recorder.path},
        {NULL, FLAG, NULL},
    };
    *o = (play_options){.ram = UND_RAM_MAX, .work = UND_WORK_MAX, .baud = USUAL_BAUD};
    return read_options(count, words, options, 1, 1) == 1;
}

static bool is_sound(const char *what, const play_options *o, monitor *m)
{
    bool rom = strcmp(what, "rom") == 0;
    m->kind = UND_KIND_UARTBOOT;
    if (!rom && strcmp(what, "uartboot") != 0) {
        misuse("it plays 'rom' or 'uartboot', not '%s'", what);
        return false;
    }
    if (rom && !read_kind(o->kind, &m->kind))
        return false;
    if (!rom && (o->kind || m->then_uartboot)) {
        misuse("--kind and --then-uartboot go with 'play rom'");
        return false;
    }
    if (rom && m->recorder.path && !m->then_uartboot) {
        misuse("--record goes with uartboot: 'play uartboot', or 'play rom' with --then-uartboot");
        return false;
    }
    if (!is_baud(o->baud))
        return false;
    if (o->port && o->link) {
        misuse("--link goes with a pseudo-terminal, not with --port");
        return false;
    }
    return true;
}

/* The flash: the file's bytes, or blank ones. */
static int lend_flash(monitor *m, const play_options *o)
{
    session *s = &m->session;
    if (!o->flash)
        s->flash = filled(USUAL_FLASH, UND_FLASH_BLANK);
    else if (!kept_open(&m->flash_file, o->flash, UND_FLASH_MAX, &s->flash)) {
        if (errno == EBUSY)
            return fail("end the other player, or take a copy of the file", "another player keeps %s", o->flash);
        return fail_errno("name a file with the flash's bytes that you may write to, in a folder that you may write to",
                          "%s cannot be opened", o->flash);
    }
    m->flash_kept = copy_of(s->flash);
    return DONE;
}

/* Lends RAM, work buffer and flash. Gives DONE, or the exit code after it has said what is wrong. */
static int lend_memories(monitor *m, const play_options *o)
{
    session *s = &m->session;
    s->ram = zeros(o->ram, UND_RAM_MAX);
    s->work = zeros(o->work, UND_WORK_MAX);
    int code = lend_flash(m, o);
    uint32_t number = code == DONE ? monitor_refusal(m) : 0;
    if (number != 0)
        code = refuse(number, "RAM %lu bytes, work buffer %lu, flash %zu%s", o->ram, o->work, s->flash.length,
                      s->flash.length > UND_FLASH_MAX ? " or more" : "");
    return code;
}

static int open_line(monitor *m, const play_options *o)
{
    if (o->port)
        return open_port(&m->line, o->port, o->baud);
    if (!line_make(&m->line))
        return fail_errno("use --port DEVICE", "a pseudo-terminal cannot be made");
    if (o->link && !link_make(o->link, m->line.path))
        return fail_errno("give --link a path that is free", "%s cannot be made", o->link);
    return DONE;
}

/* Says where a host finds the monitor, even with --quiet. */
static void announce(monitor *m, const char *what)
{
    bool quiet = m->log.quiet;
    text t = {0};
    m->log.visit.port = m->line.path;
    text_add(&t, "playing %s on %s", what, m->line.path);
    m->log.quiet = false;
    log_begin(&m->log, "line", m->line.path, t.chars);
    m->log.quiet = quiet;
    text_free(&t);
    if (!m->flash_file.path && (m->then_uartboot || m->kind == UND_KIND_UARTBOOT))
        log_note(&m->log, "flash-in-memory", NULL, "no --flash FILE: a blank flash of %zu bytes, gone at the end",
                 m->session.flash.length);
}

/* The files of a player, those that it makes beside a recording included. */
static bool files_are_separate(const monitor *m, const play_options *o)
{
    const char *record = m->recorder.path;
    text ram = {0}, work = {0}, flash = {0};
    if (record) {
        ram = recorded_ram(record);
        work = recorded_work(record);
        flash = recorded_flash(record);
    }
    const file_use uses[] = {
        {"--flash", o->flash, true},
        {"--log", m->log.path, true},
        {"--save-ram", o->save_ram, true},
        {"--port", o->port, false},
        {"--link", o->link, true},
        {"--record", record, true},
        {"the RAM of --record", ram.chars, true},
        {"the work buffer of --record", work.chars, true},
        {"the flash of --record", flash.chars, true},
    };
    bool separate = are_separate(uses, sizeof uses / sizeof *uses);
    text_free(&ram);
    text_free(&work);
    text_free(&flash);
    return separate;
}

/* Says, for the reason in errno, why no recording can be made. `verb` is what another player does with the file. */
static int refuse_record(const char *path, const char *verb)
{
    struct stat there;
    if (!*path)
        return fail("give --record the name of a file", "the name after --record is missing");
    if (errno == EBUSY)
        return fail("end the other player, or give --record another file", "another player %s %s", verb, path);
    if (errno == EEXIST)
        return fail("name another file, or remove it", "%s is no recording", path);
    if (errno == EINVAL && stat(path, &there) == 0)
        return fail("give --record the name of a file", "%s is %s", path,
                    S_ISDIR(there.st_mode) ? "a folder" : "no plain file");
    return fail_errno("give --record a file in a folder that you may write to", "%s cannot be written", path);
}

/* Gives DONE where a recording may be made, or none is wanted. From then on no other player records there. */
static int open_recorder(recorder *r)
{
    if (!r->path)
        return DONE;
    if (!recorder_open(r))
        return refuse_record(r->path, "records in");
    return can_start_file(r->path) && may_record_in(r->path) ? DONE : refuse_record(r->path, "uses");
}

/* Opens all that a monitor needs. Gives DONE, or the exit code after it has said what is wrong. */
static int prepare(monitor *m, const play_options *o)
{
    if (!files_are_separate(m, o))
        return MISUSED;
    const char *others[MOST_OTHERS] = {o->flash, m->log.path, o->save_ram, o->port, o->link};
    memcpy(m->recorder.others, others, sizeof others);
    visit *v = &m->log.visit;
    int code = lend_memories(m, o);
    v->port = o->port;
    v->kind = o->kind ? o->kind : "uartboot";
    v->baud = o->baud;
    v->file = m->flash_file.path;
    v->content = m->session.flash;
    if (code == DONE)
        code = catch_signals(true);
    if (code == DONE)
        code = open_recorder(&m->recorder);
    if (code == DONE)
        code = open_log(&m->log);
    return code == DONE ? open_line(m, o) : code;
}

/* Saves the RAM, if that was asked for. */
static int save_ram(const monitor *m, const play_options *o)
{
    return o->save_ram ? write_output(o->save_ram, m->session.ram.bytes, m->session.ram.length) : DONE;
}

static void tell_end(monitor *m)
{
    if (monitor_runs(m))
        log_end(&m->log, "end", exit_word(DONE), "code runs: the boot line is done");
    else
        log_end(&m->log, "end", exit_word(STOPPED), "stopped");
}

int run_play(int count, char **words)
{
    static monitor m;
    play_options o;
    if (!read_play_options(count, words, &o, &m) || !is_sound(words[0], &o, &m))
        return MISUSED;
    int code = prepare(&m, &o);
    if (code != DONE) {
        recorder_close(&m.recorder);
        return code;
    }
    announce(&m, words[0]);
    code = monitor_play(&m);
    int saved = save_ram(&m, &o);
    if (code == DONE && saved == DONE)
        tell_end(&m);
    if (o.link)
        link_remove(o.link, m.line.path);
    line_close(&m.line);
    log_close(&m.log);
    kept_close(&m.flash_file);
    recorder_close(&m.recorder);
    if (code == DONE)
        code = saved;
    return log_exit(&m.log, code);
}
