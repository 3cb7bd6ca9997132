/* Refusals: which of several causes is named, and that all bytes before a command and all unknown opcodes are treated
   alike. */
#include "figures.h"

#include <string.h>

/* RAM of 16 bytes, flash of 4,096, work buffer of 64. */
#define UARTBOOT KIND_UARTBOOT, 16, 4096, 64
#define HEADER_REFUSED BYTES(GREETING "\x15" GREETING), 1, 0, 0
#define PAYLOAD_REFUSED BYTES(GREETING "\x06\x15" GREETING), 1, 0, 0

/* clang-format off */
static const exchange causes[] = {
    /* 11 before 12 and 13, 12 before 13 */
    {UARTBOOT, BYTES("\x01\x06\xFF\xFF"), HEADER_REFUSED, 11},
    {UARTBOOT, BYTES("\x01\x02\xFF\xFF"), HEADER_REFUSED, 12},
    {UARTBOOT, BYTES("\x01\x01\x04\x00"), HEADER_REFUSED, 12},
    {UARTBOOT, BYTES("\x01\x01\x41\x00"), HEADER_REFUSED, 13},
    {UARTBOOT, BYTES("\x01\x12\x41\x00"), HEADER_REFUSED, 13},
    /* 14 before 16 and 21, 15 before 16, 16 and 21 before 17 */
    {UARTBOOT, BYTES("\x01\x12\x06\x00" "\x02" "\xFF\xFF\xFF\xFF" "\x00"), PAYLOAD_REFUSED, 14},
    {UARTBOOT, BYTES("\x01\x12\x07\x00" "\x02" "\xFF\x0F\x00\x00" "\x00\x00"), PAYLOAD_REFUSED, 14},
    {UARTBOOT, BYTES("\x01\x02\x06\x00" "\x00\x00\x00\x00" "\x00\x00"), PAYLOAD_REFUSED, 15},
    {UARTBOOT, BYTES("\x01\x03\x0A\x00" "\x00\x00\xFC\x07" "\x00\x00" "\x00\x10\x00\x00"), PAYLOAD_REFUSED, 15},
    {UARTBOOT, BYTES("\x01\x04\x08\x00" "\x00\x10\x00\x00" "\x00\x00\x00\x00"), PAYLOAD_REFUSED, 15},
    {UARTBOOT, BYTES("\x01\x02\x06\x00" "\x10\x00\xFC\x07" "\x41\x00"), PAYLOAD_REFUSED, 16},
    {UARTBOOT, BYTES("\x01\x02\x06\x00" "\x00\x00\xFC\x07" "\x41\x00"), PAYLOAD_REFUSED, 21},
    {KIND_UARTBOOT, 65, 4096, 64, BYTES("\x01\x02\x06\x00" "\x00\x00\xFC\x07" "\x41\x00"), PAYLOAD_REFUSED, 17},
    /* 0xFFFFFFFF plus 1 doesn't pass, and a size of 32 bits doesn't */
    {UARTBOOT, BYTES("\x01\x02\x06\x00" "\xFF\xFF\xFF\xFF" "\x01\x00"), PAYLOAD_REFUSED, 16},
    {UARTBOOT, BYTES("\x01\x08\x06\x00" "\xFF\xFF\xFF\xFF" "\x01\x00"), PAYLOAD_REFUSED, 16},
    {UARTBOOT, BYTES("\x01\x04\x08\x00" "\x01\x00\x00\x00" "\xFF\xFF\xFF\xFF"), PAYLOAD_REFUSED, 21},
    {UARTBOOT, BYTES("\x01\x04\x08\x00" "\x00\x00\x00\x80" "\x00\x00\x00\x80"), PAYLOAD_REFUSED, 16},
    /* a later reason replaces an earlier one; success doesn't */
    {UARTBOOT, BYTES("\x01\x06\x00\x00" "\x01\x04\x07\x00"),
     BYTES(GREETING "\x15" GREETING "\x15" GREETING), 1, 0, 0, 12},
    {UARTBOOT, BYTES("\x01\x06\x00\x00" "\x01\x0C\x00\x00"),
     BYTES(GREETING "\x15" GREETING "\x06" GREETING), 1, 0, 0, 11},
    /* the receiver's: a first byte other than 01, length 0, above RAM, no 06 at the end; the load then */
    {KIND_P, 16, 0, 0, BYTES("\x00"), BYTES("\x02\x15\x02"), 1, 0, 0, 31},
    {KIND_E, 16, 0, 0, BYTES("\x06\x15"), BYTES("\x02\x15\x02\x15\x02"), 1, 0, 0, 31},
    {KIND_P, 16, 0, 0, BYTES("\x01\x00\x00"), BYTES("\x02\x15\x02"), 1, 0, 0, 32},
    {KIND_P, 16, 0, 0, BYTES("\x01\x11\x00"), BYTES("\x02\x15\x02"), 1, 0, 0, 33},
    {KIND_E, 65535, 0, 0, BYTES("\x01\x00\x00\x00\x00"), BYTES("\x02\x15\x02"), 1, 0, 0, 33},
    {KIND_P, 16, 0, 0, BYTES("\x01\x01\x00\x5A\x15" "\x01\x01\x00\x5B\x06"), BYTES("\x02\x06\x5A" "\x02\x06\x5B"),
     11, 0, RAM_BASE, 34},
};
/* clang-format on */

/* Lengths and records in the order in which they are refused. The unsound record has an unknown phase. */
static const struct {
    uint32_t kind;
    size_t ram_length, flash_length, work_length;
    bool unsound;
    uint32_t number;
} refused_calls[] = {
    {KIND_UARTBOOT, 0, 0, 63, true, 1},      {KIND_UARTBOOT, 16, 4096, 65536, false, 1},
    {KIND_UARTBOOT, 0, 0, 64, true, 2},      {KIND_UARTBOOT, 131073, 100, 64, true, 2},
    {KIND_UARTBOOT, 16, 100, 64, true, 3},   {KIND_UARTBOOT, 16, 0, 64, false, 3},
    {KIND_UARTBOOT, 16, 4097, 64, false, 3}, {KIND_UARTBOOT, 16, 4198400, 64, false, 3},
    {KIND_UARTBOOT, 16, 4096, 64, true, 4},  {KIND_P, 0, 0, 0, true, 2},
    {KIND_E, 131073, 0, 0, true, 2},         {KIND_P, 16, 0, 0, true, 4},
};

static void refused_call_figures(trial *t)
{
    const uint8_t *reply;
    desk d;
    for (size_t i = 0; i < sizeof refused_calls / sizeof *refused_calls; i++) {
        setting s = setting_of(refused_calls[i].kind, refused_calls[i].ram_length, refused_calls[i].flash_length,
                               refused_calls[i].work_length);
        if (refused_calls[i].unsound)
            s.record[WORD_PHASE] = 20;
        desk_set(t, &d, &s);
        model_report got = desk_call(t, &d, (const uint8_t *)"\x01\x0B", 2, 8, &reply);
        bool nothing =
            got.standing == 0 && got.taken == 0 && got.sent == 0 && memcmp(d.record, s.record, sizeof s.record) == 0;
        if (got.number != refused_calls[i].number || !nothing)
            differ(t, "figure: refused call %zu", i);
    }
}

/* Every byte but 01 is dropped before a command; every unknown opcode is refused with 11. */
static void every_byte_figures(trial *t)
{
    static char host[4 * 256], device[4 + 5 * 256] = GREETING;
    exchange dropped = {UARTBOOT, host, 0, BYTES(GREETING), 1, 0, 0, 0};
    exchange strange = {UARTBOOT, host, 0, device, 4, 1, 0, 0, 11};
    desk d;
    for (int byte = 0; byte < 256; byte++)
        if (byte != 0x01)
            host[dropped.host_length++] = (char)byte;
    exchange_figure(t, &d, &dropped);
    for (int opcode = 0; opcode < 256; opcode++) {
        if (model_known((uint32_t)opcode))
            continue;
        memcpy(host + strange.host_length, (const char[]){0x01, (char)opcode, 0, 0}, 4);
        memcpy(device + strange.device_length, "\x15" GREETING, 5);
        strange.host_length += 4;
        strange.device_length += 5;
    }
    if (strange.host_length != 4 * (256 - 9))
        differ(t, "figure: the model has another number of opcodes than nine");
    exchange_figure(t, &d, &strange);
}

void refusal_figures(trial *t)
{
    desk d;
    for (size_t i = 0; i < sizeof causes / sizeof *causes; i++)
        exchange_figure(t, &d, &causes[i]);
    refused_call_figures(t);
    every_byte_figures(t);
}
