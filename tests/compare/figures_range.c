/* Ranges at the edges of their memories: the reason that each command gets when its payload is whole, and again at
   execution. */
#include "figures.h"
#include "streams.h"

#include <string.h>

enum { RAM_LENGTH = 16, LONGEST_COUNT = 65535 - 5, TAKES_A_COMMAND = 1, TAKES_THE_ACK = 10 };

typedef struct {
    uint32_t first, count, reason;
} edge;

/* clang-format off */
static const edge in_ram[] = {
    {RAM_BASE - 1, 1, 16}, {RAM_BASE - 1, 2, 16}, {RAM_BASE - 1, 17, 16}, {RAM_BASE - 1, 18, 16},
    {RAM_BASE, 1, 0}, {RAM_BASE, 16, 0}, {RAM_BASE, 17, 21}, {RAM_BASE, LONGEST_COUNT, 21},
    {RAM_BASE + 14, 2, 0}, {RAM_BASE + 15, 1, 0}, {RAM_BASE + 15, 2, 21},
    {RAM_BASE + 16, 1, 16}, {RAM_BASE + 16, 2, 16}, {RAM_BASE + 17, 1, 16},
    {0, 1, 16}, {0x7FFFFFFF, 1, 16}, {0xFFFFFFFF, 1, 16}, {0xFFFFFFFF, 2, 16}, {0xFFFFFFFF, LONGEST_COUNT, 16},
};

static const edge in_flash[] = {
    {0, 1, 0}, {0, 2, 0}, {0, 16, 0}, {0, 17, 0}, {0, SECTOR, 0}, {0, SECTOR + 1, 21}, {0, LONGEST_COUNT, 21},
    {SECTOR - 2, 2, 0}, {SECTOR - 1, 1, 0}, {SECTOR - 1, 2, 21}, {SECTOR - 1, 16, 21}, {SECTOR - 1, 17, 21},
    {SECTOR, 1, 16}, {SECTOR, 2, 16}, {SECTOR, 16, 16}, {SECTOR, 17, 16}, {SECTOR + 1, 1, 16},
    {0x7FFFFFFF, 1, 16}, {0xFFFFFFFF, 1, 16}, {0xFFFFFFFF, 2, 16}, {0xFFFFFFFF, LONGEST_COUNT, 16},
};

/* Only Erase has a size of 32 bits. */
static const edge erased[] = {
    {0, 0x80000000, 21}, {0, 0xFFFFFFFF, 21}, {1, 0xFFFFFFFF, 21}, {2, 0xFFFFFFFF, 21},
    {SECTOR - 1, 0xFFFFF001, 21}, {SECTOR - 1, 0xFFFFF002, 21}, {SECTOR, 0xFFFFF000, 16}, {SECTOR, 0xFFFFF001, 16},
    {0x80000000, 0x80000000, 16}, {0xFFFFFFFF, 0xFFFFFFFF, 16},
};
/* clang-format on */

static planned command_of(uint8_t opcode, uint32_t address, uint32_t offset, uint32_t count)
{
    planned p = {.opcode = opcode};
    put_command(&p, address, offset, count, 0);
    if (takes_data(opcode))
        p.length += count;
    return p;
}

/* Shows a fresh session the command. */
static void show(trial *t, desk *d, const planned *p)
{
    static uint8_t host[4 + MOST_WORK];
    const uint8_t *reply;
    setting s = setting_of(KIND_UARTBOOT, RAM_LENGTH, SECTOR, MOST_WORK);
    memcpy(host, (const uint8_t[]){0x01, p->opcode, (uint8_t)p->length, (uint8_t)(p->length >> 8)}, 4);
    memcpy(host + 4, p->payload, p->length);
    desk_set(t, d, &s);
    desk_call(t, d, host, 4 + p->length, 64, &reply);
}

/* A payload that is good, as long as this one, is accepted; then the caller writes this one over it. Data that are
   longer than their memory have no good payload. */
static void at_execution(trial *t, const planned *p, uint32_t count, uint32_t reason)
{
    const uint8_t *reply;
    desk d;
    if (takes_data(p->opcode) && count > (p->opcode == OP_WRITE ? RAM_LENGTH : SECTOR))
        return;
    planned good = command_of(p->opcode, RAM_BASE, 0, takes_data(p->opcode) ? count : 1);
    show(t, &d, &good);
    if (d.record[WORD_PHASE] != TAKES_THE_ACK)
        differ(t, "figure: opcode %02X with %u bytes from its memory's first byte on is refused", p->opcode, count);
    memcpy(d.library.work, p->payload, p->length);
    memcpy(d.model.work, p->payload, p->length);
    model_report got = desk_call(t, &d, (const uint8_t *)"\x06", 1, 64, &reply);
    if (got.taken != 1 || d.record[WORD_REASON] != reason)
        differ(t, "figure: at execution opcode %02X gets another reason than %u", p->opcode, reason);
}

static void range_figure(trial *t, uint8_t opcode, uint32_t address, uint32_t offset, uint32_t count, uint32_t reason)
{
    planned p = command_of(opcode, address, offset, count);
    desk d;
    show(t, &d, &p);
    if (d.record[WORD_PHASE] != (reason ? TAKES_A_COMMAND : TAKES_THE_ACK) || d.record[WORD_REASON] != reason)
        differ(t, "figure: opcode %02X at %08X, %08X, count %u gets another reason than %u", opcode, address, offset,
               count, reason);
    at_execution(t, &p, count, reason);
}

/* Both ranges of a Copy have one count: RAM's is judged before that of flash. */
static void copy_figures(trial *t, const edge *ram)
{
    for (size_t i = 0; i < sizeof in_flash / sizeof *in_flash; i++) {
        const edge *flash = &in_flash[i];
        if (flash->count == ram->count)
            range_figure(t, OP_COPY, ram->first, flash->first, ram->count, ram->reason ? ram->reason : flash->reason);
    }
}

void range_figures(trial *t)
{
    for (size_t i = 0; i < sizeof in_ram / sizeof *in_ram; i++) {
        const edge *e = &in_ram[i];
        range_figure(t, OP_WRITE, e->first, 0, e->count, e->reason);
        range_figure(t, OP_READ, e->first, 0, e->count, e->reason);
        if (e->count == 1)
            range_figure(t, OP_RUN, e->first, 0, 1, e->reason);
        copy_figures(t, e);
    }
    for (size_t i = 0; i < sizeof in_flash / sizeof *in_flash; i++) {
        const edge *e = &in_flash[i];
        range_figure(t, OP_ERASE, 0, e->first, e->count, e->reason);
        range_figure(t, OP_READ_QSPI, 0, e->first, e->count, e->reason);
        range_figure(t, OP_DIRECT_WRITE, 0, e->first, e->count, e->reason);
    }
    for (size_t i = 0; i < sizeof erased / sizeof *erased; i++)
        range_figure(t, OP_ERASE, 0, erased[i].first, erased[i].count, erased[i].reason);
}
