/* Given records: refused ones, what accepted ones hand out, and how a session goes on from them. */
#include "figures.h"

#include <string.h>

/* Records that a call with a RAM of 16 bytes refuses with 4. */
static const uint32_t refused_records[][WORDS] = {
    /* A place other than 0 where one byte is taken or sent, or none; one at the end of greeting, code, payload or
       answer. */
    {0, 1, 0, 0, 9, 0, 0, 0},
    {0, 0, 0, 0, 1, 0, 0, 0},
    {1, 8, 0, 3, 1, 0, 0, 0},
    {1, 7, 0, 3, 3, 0, 0, 0},
    {0, 11, 0, 0, 1, RAM_BASE, 0, 0},
    {2, 0, 0, 0, 4, 0, 0, 0},
    {2, 1, 0, 0, 1, 0, 0, 0},
    {2, 6, 1, 5, 5, 0, 0, 0},
    {2, 10, 1, 5, 1, 0, 0, 0},
    {2, 14, 2, 5, 5, 0, 0, 0},
    {2, 18, 0, 0, 1, 0, 0, 0},
    {2, 19, 5, 0, 1, RAM_BASE, 0, 0},
    /* Addresses beside RAM, and none. */
    {0, 11, 0, 0, 0, RAM_BASE - 1, 0, 0},
    {1, 11, 0, 0, 0, RAM_BASE + 16, 0, 0},
    {0, 11, 0, 0, 0, 0, 0, 0},
    {2, 19, 5, 0, 0, RAM_BASE - 1, 0, 0},
    {2, 19, 5, 0, 0, RAM_BASE + 16, 0, 0},
    /* A running command that is not Run. */
    {2, 19, 1, 0, 0, RAM_BASE, 0, 0},
    {2, 19, 0, 0, 0, RAM_BASE, 0, 0},
    {2, 19, 261, 0, 0, RAM_BASE, 0, 0},
};

/* Records that it accepts, with its standing where there is neither input nor room, and the record that it hands
   out. */
static const struct {
    uint32_t given[WORDS], standing, handed[WORDS];
} accepted_records[] = {
    {{0, 1, 9, 9, 0, 9, 9, 9}, WANTS_BYTE, {0, 1, 0, 0, 0, 0, 9, 0}},
    {{1, 7, 9, 3, 2, 9, 9, 9}, WANTS_BYTE, {1, 7, 0, 3, 2, 0, 9, 0}},
    {{0, 11, 9, 9, 0, RAM_BASE, 9, 9}, RUNS, {0, 11, 0, 0, 0, RAM_BASE, 9, 0}},
    {{1, 11, 0, 0, 0, RAM_BASE + 15, 0, 0}, RUNS, {1, 11, 0, 0, 0, RAM_BASE + 15, 0, 0}},
    {{2, 0, 9, 9, 3, 9, 9, 9}, WANTS_ROOM, {2, 0, 0, 0, 3, 0, 9, 0}},
    {{2, 6, 1, 5, 4, 9, 9, 9}, WANTS_BYTE, {2, 6, 1, 5, 4, 0, 9, 0}},
    {{2, 14, 2, 5, 4, 9, 9, 9}, WANTS_ROOM, {2, 14, 2, 5, 4, 0, 9, 0}},
    {{2, 18, 9, 9, 0, 9, 9, 9}, WANTS_ROOM, {2, 18, 0, 0, 0, 0, 9, 0}},
    {{2, 19, 5, 0, 0, RAM_BASE, 0, 0}, RUNS, {2, 19, 5, 0, 0, RAM_BASE, 0, 0}},
    {{2, 19, 5, 4294967295, 0, RAM_BASE + 15, 9, 9}, RUNS, {2, 19, 5, 0, 0, RAM_BASE + 15, 9, 0}},
};

static void record_figure(trial *t, const uint32_t given[WORDS], uint32_t number, uint32_t standing,
                          const uint32_t after[WORDS])
{
    bool uartboot = given[WORD_KIND] == KIND_UARTBOOT;
    setting s = setting_of(given[WORD_KIND], 16, uartboot ? SECTOR : 0, uartboot ? 64 : 0);
    const uint8_t *reply;
    desk d;
    memcpy(s.record, given, sizeof s.record);
    desk_set(t, &d, &s);
    model_report got = desk_call(t, &d, NULL, 0, 0, &reply);
    if (got.number != number || got.standing != standing || memcmp(d.record, after, sizeof s.record) != 0)
        differ(t, "figure: record of kind %u, phase %u, opcode %u, place %u, held %u", given[WORD_KIND],
               given[WORD_PHASE], given[WORD_OPCODE], given[WORD_PLACE], given[WORD_HELD]);
}

/* A low byte may be any number, and nothing of it is cut off; any last reason stays until another replaces it. The work
   buffer begins with 0A 0B, whose CRC is 43AF. */
static const struct {
    uint32_t given[WORDS];
    exchange after;
} gone_on[] = {
    {{1, 3, 0, 0, 0, 300, 0, 0}, {KIND_E, 400, 0, 0, BYTES("\x00"), BYTES("\x06"), 7, 300, 0, 0}},
    {{0, 3, 0, 0, 0, 401, 0, 0}, {KIND_P, 400, 0, 0, BYTES("\x00"), BYTES("\x15\x02"), 1, 0, 0, 33}},
    {{1, 5, 0, 0, 0, 256, 0, 0}, {KIND_E, 65792, 0, 0, BYTES("\x00"), BYTES("\x06"), 7, 65792, 0, 0}},
    {{1, 5, 0, 0, 0, 0xFFFFFFFF, 0, 0}, {KIND_E, 16, 0, 0, BYTES("\xFF"), BYTES("\x15\x02"), 1, 0, 0, 33}},
    {{2, 4, 1, 0, 0, 300, 0, 0}, {KIND_UARTBOOT, 16, 4096, 400, BYTES("\x00\x0A"), BYTES("\x06"), 6, 300, 0, 0}},
    {{2, 4, 1, 0, 0, 401, 0, 0}, {KIND_UARTBOOT, 16, 4096, 400, BYTES("\x00"), BYTES("\x15" GREETING), 1, 0, 0, 13}},
    {{2, 4, 1, 0, 0, 0xFFFFFFFF, 0, 0},
     {KIND_UARTBOOT, 16, 4096, 64, BYTES("\xFF"), BYTES("\x15" GREETING), 1, 0, 0, 13}},
    {{2, 4, 2, 0, 0, 0xFFFF0006, 0, 0},
     {KIND_UARTBOOT, 16, 4096, 64, BYTES("\xFF"), BYTES("\x15" GREETING), 1, 0, 0, 12}},
    {{2, 16, 2, 2, 0, 0x43AF, 0, 0}, {KIND_UARTBOOT, 16, 4096, 64, BYTES("\x00"), BYTES("\x06" GREETING), 1, 0, 0, 0}},
    {{2, 16, 2, 2, 0, 0x43AF, 0, 0}, {KIND_UARTBOOT, 16, 4096, 64, BYTES("\x01"), BYTES("\x15" GREETING), 1, 0, 0, 19}},
    {{2, 16, 2, 2, 0, 0xAF, 0, 0}, {KIND_UARTBOOT, 16, 4096, 64, BYTES("\x43"), BYTES("\x06" GREETING), 1, 0, 0, 0}},
    {{2, 0, 0, 0, 2, 0, 0xFFFFFFFF, 0},
     {KIND_UARTBOOT, 16, 4096, 64, BYTES("\x01\x0C\x00\x00"), BYTES("\x00\x03\x06" GREETING), 1, 0, 0, 0xFFFFFFFF}},
    {{2, 0, 0, 0, 3, 0, 0xFFFFFFFF, 0},
     {KIND_UARTBOOT, 16, 4096, 64, BYTES("\x01\x0D\x00\x00"), BYTES("\x03\x15" GREETING), 1, 0, 0, 11}},
};

static void going_on_figures(trial *t)
{
    desk d;
    for (size_t i = 0; i < sizeof gone_on / sizeof *gone_on; i++) {
        const exchange *x = &gone_on[i].after;
        setting s = setting_of(x->kind, x->ram_length, x->flash_length, x->work_length);
        memcpy(s.record, gone_on[i].given, sizeof s.record);
        if (x->work_length)
            memcpy(s.contents.work, "\x0A\x0B", 2);
        exchange_from(t, &d, &s, x);
    }
}

void record_figures(trial *t)
{
    for (size_t i = 0; i < sizeof refused_records / sizeof *refused_records; i++)
        record_figure(t, refused_records[i], 4, 0, refused_records[i]);
    for (size_t i = 0; i < sizeof accepted_records / sizeof *accepted_records; i++)
        record_figure(t, accepted_records[i].given, 0, accepted_records[i].standing, accepted_records[i].handed);
    going_on_figures(t);
}
