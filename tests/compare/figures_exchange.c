/* The exchanges of the proved set (rules, 13.1), and others that show one rule each. */
#include "figures.h"

#include <string.h>

setting setting_of(uint32_t kind, size_t ram_length, size_t flash_length, size_t work_length)
{
    setting s = {.kind = kind, .contents = contents_of(FIRST_CONTENTS, ram_length, flash_length, work_length)};
    memset(s.contents.ram, 0, ram_length);
    memset(s.contents.flash, 0xF0, flash_length);
    memset(s.contents.work, 0, work_length);
    model_fresh(kind, s.record);
    return s;
}

void exchange_from(trial *t, desk *d, const setting *s, const exchange *x)
{
    enum { ROOM = 2048 };
    const uint8_t *reply;
    desk_set(t, d, s);
    model_report got = desk_call(t, d, (const uint8_t *)x->host, x->host_length, ROOM, &reply);
    bool same =
        got.taken == x->host_length && got.sent == x->device_length && memcmp(reply, x->device, x->device_length) == 0;
    const uint32_t *r = d->record;
    if (!same || r[WORD_PHASE] != x->phase || r[WORD_LENGTH] != x->length || r[WORD_HELD] != x->held ||
        r[WORD_REASON] != x->reason)
        differ(t, "figure: exchange of kind %u with %zu host bytes, reason %u", x->kind, x->host_length, x->reason);
}

void exchange_figure(trial *t, desk *d, const exchange *x)
{
    setting s = setting_of(x->kind, x->ram_length, x->flash_length, x->work_length);
    exchange_from(t, d, &s, x);
}

/* clang-format off */
/* 123456789 written to RAM and read back; the host's CRC-16 of it is B1 29. */
#define WRITE_AND_READ \
    "\x01\x01\x0D\x00" "\x00\x00\xFC\x07" "123456789" "\x06" \
    "\x01\x02\x06\x00" "\x00\x00\xFC\x07" "\x09\x00" "\x06" "\x06" "\xB1\x29"
#define WRITTEN_AND_READ \
    "\x02\x01\x00\x03" "\x06" "\x06" "\xC4\xC4" \
    "\x02\x01\x00\x03" "\x06" "\x06" "\x67\xE1" "\x09\x00" "123456789" "\x06" "\x02\x01\x00\x03"

/* The last byte of a RAM of 16. */
#define RUN_LAST_BYTE "\x01\x05\x04\x00" "\x0F\x00\xFC\x07" "\x06"
#define LAST_BYTE_RUNS GREETING "\x06" "\x06" "\x65\x76"

#define VERSION_ANSWERED GREETING "\x06" "\x07\x00" "0.0.0.3"
/* clang-format on */

static void one_call_figures(trial *t)
{
    static const exchange figures[] = {
        {KIND_P, 16, 0, 0, BYTES("\x01\x03\x00\x11\x22\x44\x06"), BYTES("\x02\x06\x77"), 11, 0, RAM_BASE, 0},
        {KIND_E, 131072, 0, 0, BYTES("\x01\x00\x00\x00\x00"), BYTES("\x02\x06"), 7, 65536, 0, 0},
        {KIND_E, 131072, 0, 0, BYTES("\x01\x00\x00\x01\x00"), BYTES("\x02\x06"), 7, 65537, 0, 0},
        {KIND_E, 131072, 0, 0, BYTES("\x01\xFF\xFF"), BYTES("\x02\x06"), 7, 65535, 0, 0},
        {KIND_UARTBOOT, 1, 4096, 64, BYTES("\x01\x04\x07\x00"), BYTES(GREETING "\x15" GREETING), 1, 0, 0, 12},
        {KIND_UARTBOOT, 1, 4096, 64, BYTES("\x01\x0B\x00\x00\x06"), BYTES(VERSION_ANSWERED), 15, 7, 0, 0},
        {KIND_UARTBOOT, 9, 4096, 64, BYTES(WRITE_AND_READ), BYTES(WRITTEN_AND_READ), 1, 0, 0, 0},
        {KIND_UARTBOOT, 16, 4096, 64, BYTES(RUN_LAST_BYTE), BYTES(LAST_BYTE_RUNS), 19, 0, RAM_BASE + 15, 0},
    };
    desk d;
    for (size_t i = 0; i < sizeof figures / sizeof *figures; i++)
        exchange_figure(t, &d, &figures[i]);
}

/* A command with a payload that is executed: both sides' flash, which held F0, is then as given. */
static void flash_figure(trial *t, const char *name, const uint8_t *payload, uint8_t opcode, uint8_t length,
                         const uint8_t *flash)
{
    enum { FLASH = 3 * SECTOR };
    uint8_t host[32] = {0x01, opcode, length, 0};
    setting s = setting_of(KIND_UARTBOOT, 1, FLASH, 64);
    const uint8_t *reply;
    desk d;
    memcpy(host + 4, payload, length);
    host[4 + length] = ACK;
    desk_set(t, &d, &s);
    desk_call(t, &d, host, 5u + length, 64, &reply);
    if (memcmp(d.library.flash, flash, FLASH) != 0 || memcmp(d.model.flash, flash, FLASH) != 0)
        differ(t, "figure: %s", name);
}

static void flash_figures(trial *t)
{
    static uint8_t flash[3 * SECTOR];
    memset(flash, 0xF0, sizeof flash);
    flash[0] = 0x30;
    flash_figure(t, "3C stored over F0", (const uint8_t[]){0, 0, 0, 0, 0, 0x3C}, OP_DIRECT_WRITE, 6, flash);
    memset(flash, 0xFF, 2 * SECTOR);
    flash_figure(t, "erase of 2 from 4,095", (const uint8_t[]){0xFF, 0x0F, 0, 0, 2, 0, 0, 0}, OP_ERASE, 8, flash);
    memset(flash, 0xF0, SECTOR);
    flash_figure(t, "erase of 4,096 from 4,096", (const uint8_t[]){0, 0x10, 0, 0, 0, 0x10, 0, 0}, OP_ERASE, 8, flash);
}

void exchange_figures(trial *t)
{
    one_call_figures(t);
    flash_figures(t);
}
