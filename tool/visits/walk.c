#include "walk.h"

#include "memories.h"
#include "memory.h"

#include <stdlib.h>
#include <string.h>

enum { PIECE = 4096 };

void walk_begin(walk *w, const session *memories, content file)
{
    *w = (walk){.lent = memories, .host = stream_of(file, UND_ENTRY_HOST), .payload = {memory_of(UND_WORK_MAX), 0}};
    w->session.ram = copy_of(memories->ram);
    w->session.flash = copy_of(memories->flash);
    w->session.work = copy_of(memories->work);
    session_fresh(&w->session, UND_KIND_UARTBOOT);
}

phase walk_phase(const walk *w)
{
    return phase_of(w->session.record);
}

/* Bytes that were taken in a phase. */
static void keep_taken(walk *w, phase in, const uint8_t *bytes, size_t count)
{
    if (in.idle && walk_phase(w).idle)
        return;
    if (in.idle) {
        w->commands++;
        w->header_length = w->payload.length = 0;
        w->acked = false;
    }
    if (in.part == GO)
        w->acked = *bytes == UND_LINE_ACK;
    if (in.part == HEADER)
        w->header[w->header_length++] = *bytes;
    if (in.part == PAYLOAD) {
        memcpy(w->payload.bytes + w->payload.length, bytes, count);
        w->payload.length += count;
    }
}

/* One turn. Gives how many bytes it has taken and sent: none where it cannot go on. */
static size_t turn(walk *w, uint8_t *reply, size_t room)
{
    phase in = walk_phase(w);
    size_t ready = in.sends ? 0 : stream_ready(&w->host);
    const uint8_t *input = w->host.file.bytes + w->host.at;
    if ((in.sends ? room : ready) == 0)
        return 0;
    und_report r = session_turn(&w->session, input, ready, reply, room);
    if (r.taken > 0)
        keep_taken(w, in, input, r.taken);
    w->host.at += r.taken;
    w->in_part += r.sent;
    if (walk_phase(w).part != in.part) {
        w->before = in.part;
        w->in_part = 0;
    }
    return r.taken + r.sent;
}

size_t walk_on(walk *w, uint8_t *reply, size_t count)
{
    uint8_t dropped[PIECE];
    size_t sent = 0;
    for (size_t moved = 1; moved > 0;) {
        size_t room = reply || count - sent < PIECE ? count - sent : PIECE;
        bool sends = walk_phase(w).sends;
        moved = turn(w, reply ? reply + sent : dropped, room);
        sent += sends ? moved : 0;
    }
    return sent;
}

void walk_end(walk *w)
{
    free(w->session.ram.bytes);
    free(w->session.flash.bytes);
    free(w->session.work.bytes);
    free(w->payload.bytes);
}
