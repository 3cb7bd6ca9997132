#include "endings.h"

#include "signals.h"
#include "words.h"

#include <stdio.h>

static const char *const check_line =
    "see that the monitor has power, the right port, kind and baud rate; reset it, then load again";
static const char *const check_speed =
    "the speed is wrong, or the application runs: see to --baud, reset the monitor so that its boot ROM greets, then "
    "load again";
static const char *const load_again = "load again; if it stays so, look at cable and baud rate";
static const char *const reset_first = "the monitor must be reset first, then load again";

/* Header and code: the frame without the byte that starts it. */
static size_t all_of(const loading *l)
{
    return l->frame.length - 1;
}

/* Drops what has not left this side yet. Gives how many have. */
static size_t drop_rest(loading *l)
{
    size_t unsent = line_unsent(&l->line);
    line_discard(&l->line);
    return l->sent > unsent ? l->sent - unsent : 0;
}

/* "1 second", "10 seconds": how long load has waited. */
static const char *wait_of(const loading *l)
{
    static char words[32];
    snprintf(words, sizeof words, "%lu second%s", l->seconds, l->seconds == 1 ? "" : "s");
    return words;
}

/* Adds what was heard, and ends with it. */
static int end_noise(const loading *l, const char *where)
{
    text t = {0};
    add_count(&t, l->heard.count);
    text_add(&t, " came from %s%s: ", l->line.path, where);
    heard_add_first(&t, &l->heard);
    int code = end_with(NOISE, check_speed, "noise: %s", t.chars);
    text_free(&t);
    return code;
}

static int end_stopped(loading *l)
{
    size_t gone = drop_rest(l);
    return end_with(STOPPED, gone ? reset_first : "load again; if the monitor greets no more, reset it first",
                    "stopped by the user: %zu of %zu bytes had gone to the monitor, no code runs", gone, all_of(l));
}

int end_by_event(loading *l, line_event happened)
{
    if (happened == LINE_GONE)
        return fail("plug it in again, reset the monitor, then load again", "%s has hung up", l->line.path);
    return happened == LINE_SIGNALLED && signals_stop() ? end_stopped(l) : DONE;
}

int end_uartboot(const loading *l)
{
    return end_with(UARTBOOT, "speak to uartboot; or reset the monitor to load other code, then load again",
                    "uartboot runs already: its greeting came from %s", l->line.path);
}

int end_ungreeted(const loading *l)
{
    if (l->heard.met_uartboot)
        return end_uartboot(l);
    if (l->heard.count > 0)
        return end_noise(l, ", none a greeting");
    return end_with(SILENT, check_line, "silent: no byte came from %s for %s", l->line.path, wait_of(l));
}

int end_unanswered(const loading *l)
{
    return end_with(SILENT,
                    "see that what the bench sends reaches the monitor, and that kind and baud rate are right; reset "
                    "it, then load again",
                    "silent: no answer to the header came from %s for %s; it %s, and the header went out %zu time%s",
                    l->line.path, wait_of(l), l->headers > 1 ? "greets again and again" : "has greeted", l->headers,
                    l->headers > 1 ? "s" : "");
}

int end_header_refused(void)
{
    return refuse_unnumbered("load again; if it stays so, load a smaller code, or see whether the chip is of the other "
                             "kind; reset it first",
                             "refused: the chip has answered the header with %02X: it takes no code of this length, or "
                             "the header did not reach it whole",
                             UND_LINE_NAK);
}

int end_header_nonsense(const loading *l, size_t count)
{
    if (count > 1)
        return end_noise(l, " after the header, none an answer");
    if (l->heard.count > 1)
        return end_unanswered(l);
    return refuse_unnumbered(check_line, "refused: the chip has answered the header with %02X", l->heard.first[0]);
}

int end_stuck(loading *l)
{
    return end_with(SILENT, check_line, "silent: %s has taken no more bytes for %s, after %zu of %zu", l->line.path,
                    wait_of(l), drop_rest(l), all_of(l));
}

int end_interrupted(loading *l, uint8_t byte)
{
    return refuse_unnumbered(
        reset_first, "refused: the chip has sent %02X in the middle of the code, after %zu of %zu bytes; %s", byte,
        drop_rest(l), all_of(l),
        byte == UND_LINE_GREETING ? "it was reset, and greets again" : "it has not taken all of them");
}

int end_without_checksum(loading *l)
{
    drop_rest(l);
    return end_with(SILENT, check_line, "silent: %s has sent no checksum for %s after the code had gone", l->line.path,
                    wait_of(l));
}

/* What a byte in the wrong place may mean. */
static const char *hint_at(uint8_t byte)
{
    return byte == UND_LINE_GREETING ? "; a chip that was reset greets so" : "";
}

int end_wrong_checksum(uint8_t wanted, uint8_t got)
{
    return refuse_unnumbered(load_again,
                             "refused: the checksum differs, the chip has %02X and the code %02X; it was not started%s",
                             got, wanted, hint_at(got));
}

int end_after_checksum(uint8_t byte)
{
    return refuse_unnumbered(load_again,
                             "refused: the chip has sent %02X after the checksum; the code was not started%s", byte,
                             hint_at(byte));
}
