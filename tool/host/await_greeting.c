#include "await.h"
#include "clock.h"
#include "endings.h"
#include "talk.h"
#include "words.h"

/* In milliseconds: how soon a chip that has just started greets. */
enum { SOON = 1000 };

/* Nothing has come for a while: says once what load waits for. */
static void tell_waiting(loading *l)
{
    log_note(&l->log, "waiting", l->line.path, "waiting for the greeting on %s; if it stays so, reset the monitor",
             l->line.path);
}

static int judge(loading *l)
{
    if (heard_uartboot(&l->heard))
        return end_uartboot(l);
    if (l->heard.count > 1) {
        text t = {0};
        add_count(&t, l->heard.count - 1);
        log_note(&l->log, "passed-over", NULL, "passed over: %s from the chip before its greeting", t.chars);
        text_free(&t);
    }
    return DONE;
}

int await_greeting(loading *l)
{
    long long begun = milliseconds_now(), soon = begun + SOON, end = begun + loading_patience(l);
    for (bool told = false;;) {
        bool came, greeted = heard_greeting(&l->heard) || heard_uartboot(&l->heard);
        uint8_t byte;
        long long look = told || soon > end ? end : soon;
        int code = talk_hear(l, greeted ? l->heard.settled : look, &byte, &came);
        if (code != DONE)
            return code;
        long long now = milliseconds_now();
        if (came)
            hear(&l->heard, byte);
        else if (greeted && now >= l->heard.settled)
            return judge(l);
        if (now >= end + (heard_greeting(&l->heard) ? l->heard.settles : 0))
            return end_ungreeted(l);
        if (!told && now >= soon) {
            tell_waiting(l);
            told = true;
        }
    }
}
