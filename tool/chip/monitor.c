#include "monitor.h"

#include "exits.h"
#include "say.h"
#include "signals.h"
#include "story.h"

#include <errno.h>
#include <poll.h>
#include <string.h>

/* A line holds at most MOST_OLD pieces that a host has sent and nobody has read. */
enum { PIECE = 4096, MOST_OLD = 64, RETRY_MILLISECONDS = 500 };

/* What came from the host and was not taken yet. */
typedef struct {
    uint8_t bytes[PIECE];
    size_t at, end;
} incoming;

/* What the session has replied to it. No reply is longer than the longest answer. */
typedef struct {
    uint8_t bytes[UND_WORK_MAX];
    size_t count;
} outgoing;

uint32_t monitor_refusal(monitor *m)
{
    uint8_t none;
    session_fresh(&m->session, m->kind);
    uint32_t number = session_turn(&m->session, NULL, 0, &none, 0).number;
    if (number == 0 && (m->then_uartboot || m->flash_file.path)) {
        session_fresh(&m->session, UND_KIND_UARTBOOT);
        number = session_turn(&m->session, NULL, 0, &none, 0).number;
    }
    return number;
}

bool monitor_runs(const monitor *m)
{
    return phase_of(m->session.record).part == RUNNING;
}

/* Writes the flash to its file if it has changed since. Only then is the host told. `bytes` are those on which the
   command was carried out. */
static int keep_flash(monitor *m, const uint8_t *bytes, size_t count)
{
    content *flash = &m->session.flash;
    const char *path = m->flash_file.path;
    if (!path || memcmp(flash->bytes, m->flash_kept.bytes, flash->length) == 0)
        return DONE;
    if (!kept_replace(&m->flash_file, flash->bytes, flash->length)) {
        int reason = errno;
        log_event(&m->log, &(event){.from = FROM_HOST,
                                    .name = "not-kept",
                                    .bytes = bytes,
                                    .count = count,
                                    .words = "the command cannot be carried out: its flash cannot be kept"});
        errno = reason;
        return fail_errno(
            "make room and start again; the file has the flash from before the last command, or from after it, "
            "and the host was not told that it is done",
            "%s cannot be written", path);
    }
    memcpy(m->flash_kept.bytes, flash->bytes, flash->length);
    log_note(&m->log, "flash-kept", path, "flash kept in %s", path);
    return DONE;
}

/* The port has hung up: waits until it is there again, or the end is asked for. */
static void await_port(monitor *m)
{
    log_note(&m->log, "hung-up", m->line.path, "%s has hung up; the session waits as it is", m->line.path);
    line_close(&m->line);
    while (!signals_stop()) {
        poll(NULL, 0, RETRY_MILLISECONDS);
        if (line_reopen(&m->line)) {
            log_note(&m->log, "back", m->line.path, "%s is there again", m->line.path);
            return;
        }
    }
}

/* Sends bytes to the host. Those that a line which hung up didn't take are lost, as on any wire. */
static void send_all(monitor *m, const uint8_t *bytes, size_t length)
{
    size_t sent;
    while (length > 0 && !signals_pending()) {
        line_event happened = line_write(&m->line, bytes, length, -1, &sent);
        bytes += sent;
        length -= sent;
        if (happened == LINE_GONE) {
            await_port(m);
            return;
        }
    }
}

/* One turn: its flash is kept, its event told. */
static int turn(monitor *m, story *told, incoming *in, outgoing *out)
{
    uint32_t before[UND_RECORD_WORDS];
    const uint8_t *taken = in->bytes + in->at;
    uint8_t *reply = out->bytes + out->count;
    memcpy(before, m->session.record, sizeof before);
    und_report r = session_turn(&m->session, taken, in->end - in->at, reply, sizeof out->bytes - out->count);
    if (r.number != 0)
        return refuse(r.number, "in the middle of a session");
    int code = phase_of(before).part != phase_of(m->session.record).part ? keep_flash(m, taken, r.taken) : DONE;
    if (code != DONE)
        return code;
    story_turn(told, before, m->session.record, r.sent ? reply : taken, r.sent + r.taken);
    visit_move(&m->log.visit, r.sent + r.taken);
    in->at += r.taken;
    out->count += r.sent;
    return DONE;
}

/* Whether the session still takes what causes the replies, or still replies. */
static bool goes_on(const monitor *m, const incoming *in, const outgoing *out)
{
    if (phase_of(m->session.record).sends)
        return out->count < sizeof out->bytes;
    return out->count == 0 && in->at < in->end && !monitor_runs(m);
}

/* A burst: bytes that the session takes, and then all that it replies to them. The host sees nothing of the replies
   before the flash is kept, the events of all parts that are whole are told and the burst is recorded, in this order.
   So log and recording have all that the host has seen, and at the session's end the same bytes; what a stop or a reset
   keeps from the line is lost, as on any wire. Where the flash cannot be kept, the recording ends before the burst: its
   command is not carried out. */
static int burst(monitor *m, story *told, incoming *in)
{
    static outgoing out;
    size_t first = in->at;
    int code = DONE;
    out.count = 0;
    while (code == DONE && goes_on(m, in, &out))
        code = turn(m, told, in, &out);
    if (code != DONE)
        return code;
    content taken = {in->bytes + first, in->at - first}, replies = {out.bytes, out.count};
    recorder_add(&m->recorder, &m->session, &m->log, taken, replies);
    send_all(m, out.bytes, out.count);
    return DONE;
}

/* Waits for bytes from the host. */
static void receive(monitor *m, story *told, incoming *in)
{
    size_t count;
    story_rest(told);
    line_event happened = line_read(&m->line, in->bytes, sizeof in->bytes, RETRY_MILLISECONDS, &count);
    in->at = 0;
    in->end = count;
    if (happened == LINE_GONE)
        await_port(m);
    if (happened == LINE_QUIET)
        line_admit(&m->line);
}

/* A reset: what the host has sent before is lost. */
static void press_reset(monitor *m, incoming *in)
{
    in->end = 1;
    for (int pieces = 0; in->end > 0 && pieces < MOST_OLD; pieces++)
        line_read(&m->line, in->bytes, sizeof in->bytes, 0, &in->end);
    in->at = in->end = 0;
    log_note(&m->log, "reset", NULL, "reset: the session starts again; memories stay");
}

/* Plays one session until code runs, the reset button is pressed or the end is asked for. */
static int play_session(monitor *m, uint32_t kind, incoming *in)
{
    story told;
    int code = DONE;
    story_begin(&told, &m->log, &m->session);
    session_fresh(&m->session, kind);
    while (code == DONE && !signals_pending() && !monitor_runs(m)) {
        if (in->at == in->end && !phase_of(m->session.record).sends)
            receive(m, &told, in);
        else
            code = burst(m, &told, in);
    }
    story_end(&told);
    recorder_end(&m->recorder, &m->log);
    return code;
}

int monitor_play(monitor *m)
{
    static incoming in;
    uint32_t kind = m->kind;
    int code = DONE;
    for (bool on = true; on && code == DONE;) {
        code = play_session(m, kind, &in);
        if (signals_reset()) {
            press_reset(m, &in);
            kind = m->kind;
        } else if (code == DONE && kind != UND_KIND_UARTBOOT && m->then_uartboot && monitor_runs(m)) {
            log_note(&m->log, "uartboot", NULL, "the code is taken to be uartboot, which is played now");
            kind = UND_KIND_UARTBOOT;
        } else {
            on = false;
        }
    }
    if (code == DONE && monitor_runs(m))
        line_drain(&m->line);
    return code;
}
