#include "await.h"
#include "clock.h"
#include "endings.h"
#include "talk.h"

#include <limits.h>

/* In milliseconds after the header has left. A greeting that comes within IN_FLIGHT may have been sent before the chip
   had the header, and the answer is then on its way; if neither that nor another greeting has come after LONGER, the
   header was lost all the same. */
enum { IN_FLIGHT = 150, LONGER = 300 };

#define NEVER LLONG_MAX

typedef struct {
    size_t header;   /* its length */
    long long end;   /* when waiting is over, however often the chip greets */
    long long again; /* when the header goes out again */
    size_t nonsense; /* bytes that are neither answer nor greeting */
} answering;

static long long earlier(long long a, long long b)
{
    return a < b ? a : b;
}

/* When the header goes out again after a greeting that comes now. */
static long long time_again(const loading *l)
{
    long long now = milliseconds_now(), left = l->pace.left;
    return now < left + IN_FLIGHT ? left + LONGER : now + l->heard.settles;
}

/* A byte that is not the answer that is wanted. */
static int judge_byte(loading *l, answering *a, uint8_t byte)
{
    hear(&l->heard, byte);
    if (byte == UND_LINE_NAK)
        return end_header_refused();
    if (heard_uartboot(&l->heard))
        return end_uartboot(l);
    if (byte == UND_LINE_GREETING) {
        a->again = earlier(a->again, time_again(l));
    } else {
        a->nonsense++;
        a->again = NEVER;
    }
    return DONE;
}

/* Sends the header again if it is time to, or gives up. */
static int judge_time(loading *l, answering *a)
{
    long long now = milliseconds_now();
    if (now >= a->end)
        return a->nonsense ? end_header_nonsense(l, a->nonsense) : end_unanswered(l);
    if (now < a->again)
        return DONE;
    log_note(&l->log, "header-again", NULL, "the chip greets again and does not answer: the header is sent again");
    a->again = NEVER;
    return talk_header(l, a->header);
}

int await_answer(loading *l, uint8_t wanted)
{
    answering a = {.header = l->sent, .again = NEVER};
    heard_forget(&l->heard);
    a.end = milliseconds_now() + loading_patience(l) + pace_arrival(&l->pace);
    for (int code = DONE;;) {
        bool came = false;
        uint8_t byte = 0;
        code = talk_hear(l, earlier(a.end, a.again), &byte, &came);
        if (code == DONE && came && byte == wanted)
            return DONE;
        if (code == DONE && came)
            code = judge_byte(l, &a, byte);
        if (code == DONE)
            code = judge_time(l, &a);
        if (code != DONE)
            return code;
    }
}
