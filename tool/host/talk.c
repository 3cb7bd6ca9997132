#include "talk.h"

#include "clock.h"
#include "endings.h"
#include "progress.h"

#include <limits.h>

/* So many bytes are sent between two looks at the bar, and at the chip. */
enum { PIECE = 1024 };

int talk_hear(loading *l, long long until, uint8_t *byte, bool *came)
{
    size_t count = 0;
    long long left;
    do {
        left = until - milliseconds_now();
        int patience = left <= 0 ? 0 : left < INT_MAX ? (int)left : INT_MAX;
        int code = end_by_event(l, line_read(&l->line, byte, 1, patience, &count));
        if (code != DONE)
            return code;
    } while (count == 0 && left > 0);
    *came = count > 0;
    return DONE;
}

/* Gives some of the next bytes of the frame to the line, `most` at most. */
static int give(loading *l, size_t most)
{
    size_t count;
    long long patience = loading_patience(l) + pace_rest(&l->pace);
    line_event happened = line_write(&l->line, l->frame.bytes + l->sent, most, (int)patience, &count);
    l->sent += count;
    pace_add(&l->pace, count);
    visit_move(&l->log.visit, count);
    return happened == LINE_QUIET ? end_stuck(l) : end_by_event(l, happened);
}

/* The next bytes of the frame up to `end`, which are few. */
static int give_all(loading *l, size_t end)
{
    int code = DONE;
    pace_begin(&l->pace);
    while (code == DONE && l->sent < end)
        code = give(l, end - l->sent);
    return code;
}

int talk_header(loading *l, size_t length)
{
    l->headers++;
    l->sent = 0;
    return give_all(l, length);
}

int talk_go(loading *l)
{
    return give_all(l, l->frame.length);
}

/* A piece of the code, if the chip is quiet. */
static int give_piece(loading *l, size_t most)
{
    uint8_t byte;
    bool came = false;
    int code = talk_hear(l, 0, &byte, &came);
    if (code == DONE)
        code = came ? end_interrupted(l, byte) : give(l, most < PIECE ? most : PIECE);
    return code;
}

int talk_code(loading *l, size_t length)
{
    size_t begin = l->sent, end = begin + length;
    int code = DONE;
    pace_begin(&l->pace);
    while (code == DONE && l->sent < end) {
        code = give_piece(l, end - l->sent);
        if (l->bar)
            show_progress(l->sent - begin, length);
    }
    end_progress(l->bar);
    return code;
}
