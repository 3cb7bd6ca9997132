/* Cases of boot frames, and their way through a receiver of their kind. */
#include "fill.h"
#include "lend.h"
#include "model.h"
#include "seen.h"
#include "trial.h"
#include "undalisho.h"

#include <string.h>

enum { LONGEST_CODE = MOST_RAM + 64, LONGEST_FRAME = LONGEST_CODE + 64 };

static shelf code_shelf, out_shelf, ram_shelf;

static size_t code_length(trial *t)
{
    static const uint64_t edges[] = {1, 65535, 65536, 131071, 131072, 0, 255, 256};
    if (!once_in(t->c, 16))
        return pick(t->c, 300);
    size_t length = near_edges(t->c, edges, sizeof edges / sizeof *edges);
    return length > LONGEST_CODE ? 0 : length;
}

/* The frame's receiver, with RAM enough, ends with the code in RAM, running. */
static void round_trip(trial *t, uint32_t kind, const uint8_t *frame, size_t frame_length, const uint8_t *code,
                       size_t length)
{
    uint32_t record[WORDS];
    uint8_t reply[8];
    size_t ram_length = length + (length < MOST_RAM ? pick(t->c, 2) : 0), at = 0;
    uint8_t *ram = shelf_lend(&ram_shelf, ram_length, true);
    und_report r = {0, WANTS_BYTE, 0, 0};
    memset(ram, 0xEE, ram_length);
    und_rom_fresh(kind, record);
    while (at < frame_length && r.number == 0 && r.standing != RUNS) {
        r = und_rom_call(record, frame + at, frame_length - at, reply, sizeof reply, ram, ram_length);
        at += r.taken;
    }
    same_number(t, "round trip's standing", r.standing, RUNS);
    same_number(t, "round trip's taken bytes", at, frame_length);
    same_bytes(t, "code in RAM", ram, code, length);
    if ((ram_length > length && ram[length] != 0xEE) || !shelf_intact(&ram_shelf))
        differ(t, "a byte after the code in RAM was written");
}

void frame_case(trial *t)
{
    static uint8_t want_out[LONGEST_FRAME], kept[LONGEST_CODE];
    if (!code_shelf.first) {
        shelf_build(&code_shelf, LONGEST_CODE);
        shelf_build(&out_shelf, LONGEST_FRAME);
        shelf_build(&ram_shelf, LONGEST_CODE);
    }
    uint32_t kind = pick(t->c, 2);
    size_t length = code_length(t), frame = length + (length > 65535 && kind == KIND_E ? 6 : 4),
           room = room_near(t->c, frame);
    bool at_end = !once_in(t->c, 3);
    uint8_t *code = shelf_lend(&code_shelf, length, at_end), *out = shelf_lend(&out_shelf, room, at_end);
    fill(t->c, kept, length);
    memcpy(code, kept, length);
    fill(t->c, want_out, room);
    memcpy(out, want_out, room);
    und_framed got = kind == KIND_P ? und_frame_p(length ? code : NULL, length, room ? out : NULL, room)
                                    : und_frame_e(length ? code : NULL, length, room ? out : NULL, room);
    model_framed want = model_frame(kind, kept, length, want_out, room);
    tell(t, "frame: kind %u, code %zu, room %zu: number %u, length %zu\n", kind, length, room, want.number,
         want.length);
    seen(kind == KIND_P ? SEEN_FRAME_P_NUMBER : SEEN_FRAME_E_NUMBER, want.number);
    same_number(t, "frame's number", got.number, want.number);
    same_number(t, "frame's length", got.length, want.length);
    same_bytes(t, "frame", out, want_out, room);
    same_bytes(t, "lent code", code, kept, length);
    if (!shelf_intact(&code_shelf) || !shelf_intact(&out_shelf))
        differ(t, "a byte beside code or frame was written");
    if (want.number == 0 && !differs(t))
        round_trip(t, kind, out, got.length, code, length);
    t->calls++;
}
