/* Boot frames at the edges of code and room, and loads of them into RAM that is just long enough, or one byte too
   short. */
#include "figures.h"
#include "undalisho.h"

#include <string.h>

enum { LONGEST = MOST_RAM + 64 };

typedef struct {
    uint32_t kind;
    size_t code_length;
    uint32_t number; /* 41, 42, or 0 where there is a frame */
    const char *head;
    size_t head_length;
} frame_of;

static const frame_of frames[] = {
    {KIND_P, 0, 41, BYTES("")},
    {KIND_P, 1, 0, BYTES("\x01\x01\x00")},
    {KIND_P, 255, 0, BYTES("\x01\xFF\x00")},
    {KIND_P, 256, 0, BYTES("\x01\x00\x01")},
    {KIND_P, 65535, 0, BYTES("\x01\xFF\xFF")},
    {KIND_P, 65536, 42, BYTES("")},
    {KIND_E, 0, 41, BYTES("")},
    {KIND_E, 1, 0, BYTES("\x01\x01\x00")},
    {KIND_E, 256, 0, BYTES("\x01\x00\x01")},
    {KIND_E, 65535, 0, BYTES("\x01\xFF\xFF")},
    {KIND_E, 65536, 0, BYTES("\x01\x00\x00\x00\x00")},
    {KIND_E, 65537, 0, BYTES("\x01\x00\x00\x01\x00")},
    {KIND_E, 131071, 0, BYTES("\x01\x00\x00\xFF\xFF")},
    {KIND_E, 131072, 42, BYTES("")},
};

static uint8_t code[LONGEST], expected[LONGEST], out[LONGEST];

/* The output of `room` bytes holds EE before; `expected` has what it must hold then. */
static void frame_figure(trial *t, const frame_of *f, size_t room, uint32_t number)
{
    size_t length = number ? 0 : f->head_length + f->code_length + 1;
    for (int model = 0; model < 2; model++) {
        memset(out, 0xEE, sizeof out);
        und_framed got = f->kind == KIND_P ? und_frame_p(code, f->code_length, out, room)
                                           : und_frame_e(code, f->code_length, out, room);
        if (model) {
            memset(out, 0xEE, sizeof out);
            model_framed other = model_frame(f->kind, code, f->code_length, out, room);
            got = (und_framed){other.number, other.length};
        }
        bool same = got.number == number && got.length == length && memcmp(out, expected, length) == 0;
        for (size_t i = length; i < sizeof out; i++)
            same = same && out[i] == 0xEE;
        if (!same)
            differ(t, "figure: frame of kind %u, code %zu, room %zu", f->kind, f->code_length, room);
    }
}

/* The frame's bytes in one call. The device sends 02, 06 and the XOR, and runs the code in RAM; or it refuses with 33
   where the RAM is too short. */
static void load_figure(trial *t, const frame_of *f, size_t ram_length)
{
    bool fits = f->code_length <= ram_length;
    setting s = setting_of(f->kind, ram_length, 0, 0);
    uint8_t device[] = {0x02, fits ? ACK : NAK, fits ? 0 : 0x02};
    const uint8_t *reply;
    desk d;
    for (size_t i = 0; fits && i < f->code_length; i++)
        device[2] ^= code[i];
    desk_set(t, &d, &s);
    model_report got =
        desk_call(t, &d, expected, fits ? f->head_length + f->code_length + 1 : f->head_length, 64, &reply);
    bool same = got.sent == sizeof device && memcmp(reply, device, sizeof device) == 0 &&
                got.standing == (fits ? RUNS : WANTS_BYTE);
    if (!same || d.record[WORD_REASON] != (fits ? 0 : 33) || (fits && memcmp(d.library.ram, code, f->code_length) != 0))
        differ(t, "figure: load of kind %u, code %zu, RAM %zu", f->kind, f->code_length, ram_length);
}

void load_figures(trial *t)
{
    for (size_t i = 0; i < sizeof code; i++)
        code[i] = (uint8_t)(i % 251);
    for (size_t i = 0; i < sizeof frames / sizeof *frames; i++) {
        const frame_of *f = &frames[i];
        size_t length = f->head_length + f->code_length + 1;
        memcpy(expected, f->head, f->head_length);
        memcpy(expected + f->head_length, code, f->code_length);
        expected[length - 1] = ACK;
        frame_figure(t, f, length, f->number);
        frame_figure(t, f, length + 5, f->number);
        frame_figure(t, f, length - 1, f->number ? f->number : 43);
        if (f->number)
            continue;
        load_figure(t, f, f->code_length);
        if (f->code_length > 1)
            load_figure(t, f, f->code_length - 1);
    }
}
