/* Calls of a host: refused ones in the order of their causes, given records, and how a host goes on from them. */
#include "figures.h"

#include <string.h>

/* clang-format off */
#define READ_0 "\x00\x00\xFC\x07" "\x00\x00"
#define READ_2 "\x00\x00\xFC\x07" "\x02\x00"
#define READ_300 "\x00\x00\xFC\x07" "\x2C\x01"
#define WRITE_2 "\x00\x00\xFC\x07" "\x0A\x0B"
#define RUN_15 "\x0F\x00\xFC\x07"
/* clang-format on */

#define ZEROS(count) NULL, count

typedef struct {
    uint32_t opcode;
    const char *payload;
    size_t length;
    uint32_t record[WORDS];
} given;

/* What a call gives with a fresh record, or one with an unknown phase. */
static const struct {
    given given;
    size_t answer_length;
    uint32_t number;
} causes[] = {
    /* 71 before 72 and 4 */
    {{0x06, ZEROS(0), {3, 18}}, 0, 71},
    {{0x10B, ZEROS(0), {3}}, 7, 71},
    {{OP_VERSION, ZEROS(1), {3, 18}}, 0, 71},
    {{OP_READ, BYTES(READ_2 "\x00"), {3, 18}}, 0, 71},
    {{OP_READ, BYTES("\x00\x00\xFC\x07\x02"), {3}}, 0, 71},
    {{OP_CHIP_ERASE, ZEROS(1), {3}}, 0, 71},
    {{OP_RUN, BYTES(RUN_15 "\x00"), {3}}, 0, 71},
    {{OP_RUN, ZEROS(0), {3}}, 0, 71},
    {{OP_WRITE, ZEROS(4), {3}}, 0, 71},
    {{OP_WRITE, ZEROS(5), {3}}, 0, 0},
    {{OP_WRITE, ZEROS(65535), {3}}, 0, 0},
    {{OP_WRITE, ZEROS(65536), {3}}, 0, 71},
    {{OP_DIRECT_WRITE, ZEROS(5), {3}}, 0, 71},
    {{OP_DIRECT_WRITE, ZEROS(65535), {3}}, 0, 0},
    {{OP_DIRECT_WRITE, ZEROS(65536), {3, 18}}, 0, 71},
    /* 72 before 4 */
    {{OP_VERSION, ZEROS(0), {3, 18}}, 6, 72},
    {{OP_VERSION, ZEROS(0), {3, 18}}, 7, 4},
    {{OP_VERSION, ZEROS(0), {3}}, 7, 0},
    {{OP_READ, BYTES(READ_2), {3, 18}}, 1, 72},
    {{OP_READ, BYTES(READ_2), {3}}, 2, 0},
    {{OP_READ, BYTES(READ_0), {3}}, 0, 0},
    {{OP_READ_QSPI, BYTES(READ_300), {3}}, 299, 72},
    {{OP_READ_QSPI, BYTES(READ_300), {3}}, 300, 0},
    {{OP_COPY, ZEROS(10), {3}}, 0, 0},
};

/* Records of which a call hands out another, with its standing where there is neither input nor room; or which it
   refuses with 4, where the standing is 0. */
static const struct {
    given given;
    uint32_t standing, handed[WORDS];
} records[] = {
    {{OP_VERSION, BYTES(""), {3, 0, 9, 9, 3, 9, 9, 9}}, WANTS_BYTE, {3, 0, 0, 0, 3, 0, 9, 0}},
    {{OP_VERSION, BYTES(""), {3, 0, 0, 0, 4, 0, 0, 0}}, 0, {3, 0, 0, 0, 4, 0, 0, 0}},
    {{OP_VERSION, BYTES(""), {3, 1, 9, 9, 3, 9, 9, 9}}, WANTS_ROOM, {3, 1, 0, 0, 3, 0, 9, 0}},
    {{OP_VERSION, BYTES(""), {3, 1, 0, 0, 4, 0, 0, 0}}, 0, {3, 1, 0, 0, 4, 0, 0, 0}},
    {{OP_VERSION, BYTES(""), {3, 2, 0, 0, 1, 0, 0, 0}}, 0, {3, 2, 0, 0, 1, 0, 0, 0}},
    {{OP_VERSION, BYTES(""), {3, 12, 0, 0, 6, 0, 0, 0}}, WANTS_BYTE, {3, 12, 0, 0, 6, 0, 0, 0}},
    {{OP_VERSION, BYTES(""), {3, 12, 0, 0, 7, 0, 0, 0}}, 0, {3, 12, 0, 0, 7, 0, 0, 0}},
    {{OP_VERSION, BYTES(""), {3, 17, 9, 9, 0, 9, 73, 9}}, OVER, {3, 17, 0, 0, 0, 0, 73, 0}},
    {{OP_VERSION, BYTES(""), {3, 17, 9, 9, 0, 9, 9, 9}}, OVER, {3, 17, 0, 0, 0, 0, 9, 0}},
    {{OP_VERSION, BYTES(""), {3, 17, 0, 0, 1, 0, 0, 0}}, 0, {3, 17, 0, 0, 1, 0, 0, 0}},
    {{OP_WRITE, BYTES(WRITE_2), {3, 3, 9, 9, 5, 9, 9, 9}}, WANTS_ROOM, {3, 3, 0, 0, 5, 0, 9, 0}},
    {{OP_WRITE, BYTES(WRITE_2), {3, 3, 0, 0, 6, 0, 0, 0}}, 0, {3, 3, 0, 0, 6, 0, 0, 0}},
    {{OP_WRITE, BYTES(WRITE_2), {3, 5, 9, 9, 0, 9, 9, 9}}, WANTS_BYTE, {3, 5, 0, 0, 0, 0, 9, 0}},
    {{OP_WRITE, BYTES(WRITE_2), {3, 6, 9, 9, 0, 999, 9, 9}}, WANTS_BYTE, {3, 6, 0, 0, 0, 999, 9, 0}},
    {{OP_WRITE, BYTES(WRITE_2), {3, 8, 9, 9, 0, 9, 9, 9}}, WANTS_ROOM, {3, 8, 0, 0, 0, 0, 9, 0}},
    {{OP_WRITE, BYTES(WRITE_2), {3, 16, 9, 9, 0, 9, 9, 9}}, WANTS_BYTE, {3, 16, 0, 0, 0, 0, 9, 0}},
    {{OP_WRITE, BYTES(WRITE_2), {3, 16, 0, 0, 1, 0, 0, 0}}, 0, {3, 16, 0, 0, 1, 0, 0, 0}},
    /* phases that the command does not have */
    {{OP_VERSION, BYTES(""), {3, 3}}, 0, {3, 3}},
    {{OP_CHIP_ERASE, BYTES(""), {3, 8}}, 0, {3, 8}},
    {{OP_WRITE, BYTES(WRITE_2), {3, 9}}, 0, {3, 9}},
    {{OP_WRITE, BYTES(WRITE_2), {3, 12}}, 0, {3, 12}},
    {{OP_RUN, BYTES(RUN_15), {3, 15}}, 0, {3, 15}},
    {{OP_RUN, BYTES(RUN_15), {3, 16}}, 0, {3, 16}},
    {{OP_VERSION, BYTES(""), {3, 16}}, 0, {3, 16}},
    {{OP_READ, BYTES(READ_2), {3, 16}}, 0, {3, 16}},
    /* an answer of 0 bytes has a length, and nothing after it */
    {{OP_READ, BYTES(READ_0), {3, 9}}, WANTS_BYTE, {3, 9}},
    {{OP_READ, BYTES(READ_0), {3, 10, 0, 0, 0, 5}}, WANTS_BYTE, {3, 10, 0, 0, 0, 5}},
    {{OP_READ, BYTES(READ_0), {3, 11}}, 0, {3, 11}},
    {{OP_READ, BYTES(READ_0), {3, 12}}, 0, {3, 12}},
    {{OP_READ, BYTES(READ_0), {3, 15}}, 0, {3, 15}},
    /* kinds */
    {{OP_VERSION, BYTES(""), {2, 17}}, 0, {2, 17}},
    {{OP_VERSION, BYTES(""), {0x103, 17}}, 0, {0x103, 17}},
};

/* One call from a given record on. The CRC of WRITE_2 is 055F. The answer buffer holds EE EE, whose CRC is 3252. */
static const struct {
    given given;
    const char *device;
    size_t device_length;
    const char *host;
    size_t host_length, taken;
    uint32_t phase, held, reason;
} gone_on[] = {
    /* a held number is not cut off, and does not wrap */
    {{OP_WRITE, BYTES(WRITE_2), {3, 6, 0, 0, 0, 0x5F, 9}}, BYTES("\x05"), BYTES("\x06"), 1, 16, 0, 9},
    {{OP_WRITE, BYTES(WRITE_2), {3, 6, 0, 0, 0, 0x55F, 9}}, BYTES("\x00"), BYTES("\x06"), 1, 16, 0, 9},
    {{OP_WRITE, BYTES(WRITE_2), {3, 6, 0, 0, 0, 0x55F, 9}}, BYTES("\x05"), BYTES("\x15"), 1, 17, 0, 74},
    {{OP_WRITE, BYTES(WRITE_2), {3, 6, 0, 0, 0, 0xFFFFFF5F, 9}}, BYTES("\x06"), BYTES("\x15"), 1, 17, 0, 74},
    {{OP_READ, BYTES(READ_300), {3, 10, 0, 0, 0, 300, 9}}, BYTES("\x00"), BYTES("\x06"), 1, 12, 0, 9},
    {{OP_READ, BYTES(READ_300), {3, 10, 0, 0, 0, 300, 9}}, BYTES("\x01"), BYTES(""), 1, 17, 0, 75},
    {{OP_READ, BYTES(READ_300), {3, 10, 0, 0, 0, 0xFFFFFF2C, 9}}, BYTES("\x02"), BYTES(""), 1, 17, 0, 75},
    /* a length 0 is not allowed, even where it is the awaited one */
    {{OP_READ, BYTES(READ_0), {3, 9}}, BYTES("\x00"), BYTES(""), 1, 10, 0, 0},
    {{OP_READ, BYTES(READ_0), {3, 9}}, BYTES("\x00\x00\x06"), BYTES(""), 2, 17, 0, 75},
    {{OP_READ, BYTES(READ_2), {3, 9}}, BYTES("\x00\x00\x06"), BYTES(""), 2, 17, 0, 75},
    /* a low byte is held until the high one comes, and 15 is none unless it is awaited */
    {{OP_READ, BYTES(READ_2), {3, 9}}, BYTES("\x06"), BYTES(""), 1, 10, 6, 0},
    {{OP_READ, BYTES(READ_2), {3, 9}}, BYTES("\x15\x00"), BYTES(""), 1, 17, 0, 73},
    {{OP_WRITE, BYTES(WRITE_2), {3, 5}}, BYTES("\x15"), BYTES(""), 1, 6, 0x15, 0},
    /* the answer's CRC is that of the buffer */
    {{OP_READ, BYTES(READ_2), {3, 13}}, BYTES("\x06"), BYTES("\x52\x32"), 1, 17, 0, 0},
    {{OP_READ, BYTES(READ_2), {3, 14}}, BYTES("\x06"), BYTES("\x32"), 1, 17, 0, 0},
    /* success keeps a reason, and what is over takes nothing */
    {{OP_RUN, BYTES(RUN_15), {3, 7, 0, 0, 0, 0, 75}}, BYTES("\x06"), BYTES("\x06"), 0, 17, 0, 75},
    {{OP_WRITE, BYTES(WRITE_2), {3, 16, 0, 0, 0, 0, 99}}, BYTES("\x02"), BYTES(""), 0, 17, 0, 99},
    {{OP_WRITE, BYTES(WRITE_2), {3, 17, 0, 0, 0, 0, 99}}, BYTES("\x06"), BYTES(""), 0, 17, 0, 99},
    {{OP_WRITE, BYTES(WRITE_2), {3, 8, 0, 0, 0, 0, 99}}, BYTES("\x06"), BYTES("\x15"), 0, 17, 0, 99},
};

enum { ROOM = 64, BUFFER = 300 };

static void set_given(trial *t, desk *d, const given *g, size_t answer_length)
{
    setting s = host_setting(g->opcode, g->payload, g->length, answer_length);
    memcpy(s.record, g->record, sizeof s.record);
    desk_set(t, d, &s);
}

static void cause_figures(trial *t)
{
    const uint8_t *reply;
    desk d;
    for (size_t i = 0; i < sizeof causes / sizeof *causes; i++) {
        set_given(t, &d, &causes[i].given, causes[i].answer_length);
        model_report got = desk_call(t, &d, NULL, 0, ROOM, &reply);
        if (got.number != causes[i].number || got.standing != (got.number ? 0 : WANTS_BYTE))
            differ(t, "figure: refused call %zu of a host", i);
    }
}

static void given_record_figures(trial *t)
{
    const uint8_t *reply;
    desk d;
    for (size_t i = 0; i < sizeof records / sizeof *records; i++) {
        set_given(t, &d, &records[i].given, BUFFER);
        model_report got = desk_call(t, &d, NULL, 0, 0, &reply);
        bool same = got.standing == records[i].standing && got.number == (got.standing ? 0 : 4) &&
                    memcmp(d.record, records[i].handed, sizeof records[i].handed) == 0;
        if (!same)
            differ(t, "figure: given record %zu of a host", i);
    }
}

static void going_on_figures(trial *t)
{
    const uint8_t *reply;
    desk d;
    for (size_t i = 0; i < sizeof gone_on / sizeof *gone_on; i++) {
        const uint8_t *device = (const uint8_t *)gone_on[i].device;
        set_given(t, &d, &gone_on[i].given, BUFFER);
        model_report got = desk_call(t, &d, device, gone_on[i].device_length, ROOM, &reply);
        bool same = got.taken == gone_on[i].taken && got.sent == gone_on[i].host_length &&
                    memcmp(reply, gone_on[i].host, got.sent) == 0 && d.record[WORD_PHASE] == gone_on[i].phase &&
                    d.record[WORD_HELD] == gone_on[i].held && d.record[WORD_REASON] == gone_on[i].reason;
        if (!same)
            differ(t, "figure: how a host goes on from given record %zu", i);
    }
}

void host_call_figures(trial *t)
{
    cause_figures(t);
    given_record_figures(t);
    going_on_figures(t);
}
