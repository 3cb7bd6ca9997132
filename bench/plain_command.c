/* uartboot's commands in plain C. */
#include "plain_command.h"

#include "plain.h"

#include <string.h>

enum { SECTOR = 4096 };

uint32_t plain_number32(const uint8_t *b)
{
    return b[0] | (uint32_t)b[1] << 8 | (uint32_t)b[2] << 16 | (uint32_t)b[3] << 24;
}

size_t plain_number16(const uint8_t *b)
{
    return (size_t)b[0] | (size_t)b[1] << 8;
}

int plain_is_known(uint32_t opcode)
{
    return (opcode >= WRITE && opcode <= RUN) || opcode == READ_QSPI || opcode == VERSION || opcode == CHIP_ERASE ||
           opcode == DIRECT_WRITE;
}

int plain_has_length(uint32_t opcode, size_t length)
{
    switch (opcode) {
    case WRITE: return length >= 5;
    case READ:
    case READ_QSPI: return length == 6;
    case COPY: return length == 10;
    case ERASE: return length == 8;
    case RUN: return length == 4;
    case DIRECT_WRITE: return length >= 6;
    default: return length == 0;
    }
}

int plain_has_answer(uint32_t opcode)
{
    return opcode == READ || opcode == READ_QSPI || opcode == VERSION;
}

/* The reason against a range: its first byte is outside its memory, or it runs past the end. */
static uint32_t judge_range(size_t start, size_t count, size_t base, size_t length)
{
    if (start < base || start - base >= length)
        return 16;
    return count > length - (start - base) ? 21 : 0;
}

/* What is tested of a command: its count, its range in RAM, its range in flash, the answer's length. What it doesn't
   have is 0. */
typedef struct {
    size_t count, address, ram, offset, flash, answer;
} demands;

static demands demands_of(uint32_t opcode, size_t length, const uint8_t *work)
{
    size_t first = plain_number32(work), count = plain_number16(work + 4);
    switch (opcode) {
    case WRITE: return (demands){length - 4, first, length - 4, 0, 0, 0};
    case READ: return (demands){count, first, count, 0, 0, count};
    case COPY: return (demands){count, first, count, plain_number32(work + 6), count, 0};
    case ERASE: return (demands){plain_number32(work + 4), RAM_BASE, 0, first, plain_number32(work + 4), 0};
    case RUN: return (demands){1, first, 1, 0, 0, 0};
    case READ_QSPI: return (demands){count, RAM_BASE, 0, first, count, count};
    case DIRECT_WRITE: return (demands){length - 5, RAM_BASE, 0, plain_number32(work + 1), length - 5, 0};
    case VERSION: return (demands){1, RAM_BASE, 0, 0, 0, 7};
    default: return (demands){1, RAM_BASE, 0, 0, 0, 0};
    }
}

static uint32_t judge(uint32_t opcode, const demands *d, const plain_memories *m)
{
    if (opcode == DIRECT_WRITE && m->work[0] > 1)
        return 14;
    if (d->count == 0)
        return 15;
    uint32_t reason = judge_range(d->address, d->ram, RAM_BASE, m->ram_len);
    if (!reason)
        reason = judge_range(d->offset, d->flash, 0, m->flash_len);
    if (reason)
        return reason;
    return d->answer > m->work_len ? 17 : 0;
}

uint32_t plain_check(uint32_t opcode, size_t length, const plain_memories *m)
{
    demands d = demands_of(opcode, length, m->work);
    return judge(opcode, &d, m);
}

/* A flash store leaves old AND new. */
static void burn(uint8_t *flash, const uint8_t *bytes, size_t count)
{
    for (size_t i = 0; i < count; i++)
        flash[i] &= bytes[i];
}

static void erase(uint8_t *flash, size_t offset, size_t size)
{
    size_t first = offset / SECTOR * SECTOR;
    size_t past = ((offset + size - 1) / SECTOR + 1) * SECTOR;
    memset(flash + first, 0xFF, past - first);
}

static uint32_t direct_write(const plain_memories *m, size_t offset, size_t count)
{
    burn(m->flash + offset, m->work + 5, count);
    if (m->work[0] == 1 && memcmp(m->flash + offset, m->work + 5, count) != 0)
        return 18;
    return 0;
}

uint32_t plain_execute(uint32_t opcode, size_t length, const plain_memories *m, size_t *answer)
{
    demands d = demands_of(opcode, length, m->work);
    uint32_t reason = judge(opcode, &d, m);
    if (reason != 0)
        return reason;
    *answer = d.answer;
    switch (opcode) {
    case WRITE: plain.copy(m->ram + (d.address - RAM_BASE), m->work + 4, d.ram); break;
    case READ: plain.copy(m->work, m->ram + (d.address - RAM_BASE), d.ram); break;
    case COPY: burn(m->flash + d.offset, m->ram + (d.address - RAM_BASE), d.flash); break;
    case ERASE: erase(m->flash, d.offset, d.flash); break;
    case READ_QSPI: plain.copy(m->work, m->flash + d.offset, d.flash); break;
    case VERSION: plain.copy(m->work, "0.0.0.3", 7); break;
    case CHIP_ERASE: memset(m->flash, 0xFF, m->flash_len); break;
    case DIRECT_WRITE: return direct_write(m, d.offset, d.flash);
    }
    return 0;
}
