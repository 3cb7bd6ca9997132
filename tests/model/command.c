/* uartboot's commands: the lengths they have, the tests they must pass, what they do. */
#include "little.h"
#include "model.h"

#include <string.h>

/* A payload has `least` bytes, and more only where data follows. */
typedef struct {
    uint8_t opcode;
    uint8_t least;
    bool data, answer;
} shape;

static const shape shapes[] = {
    {OP_WRITE, 5, true, false},   {OP_READ, 6, false, true},        {OP_COPY, 10, false, false},
    {OP_ERASE, 8, false, false},  {OP_RUN, 4, false, false},        {OP_READ_QSPI, 6, false, true},
    {OP_VERSION, 0, false, true}, {OP_CHIP_ERASE, 0, false, false}, {OP_DIRECT_WRITE, 6, true, false},
};

uint32_t model_opcodes(void)
{
    return sizeof shapes / sizeof *shapes;
}

uint8_t model_opcode(uint32_t i)
{
    return shapes[i].opcode;
}

static const shape *shape_of(uint32_t opcode)
{
    for (uint32_t i = 0; i < model_opcodes(); i++)
        if (shapes[i].opcode == opcode)
            return &shapes[i];
    return NULL;
}

bool model_known(uint32_t opcode)
{
    return shape_of(opcode) != NULL;
}

bool model_has_length(uint32_t opcode, uint64_t length)
{
    const shape *found = shape_of(opcode);
    return found && (length == found->least || (found->data && length > found->least));
}

bool model_has_answer(uint32_t opcode)
{
    const shape *found = shape_of(opcode);
    return found && found->answer;
}

/* What a payload says, in numbers that cannot wrap. Ranges are places from a memory's first byte on. */
typedef struct {
    int64_t verify, count;
    int64_t ram, flash; /* first byte, or -1 if there is no such range */
    bool in_ram, in_flash;
    const uint8_t *data;
    bool answers;
} meaning;

static meaning meaning_of(uint32_t opcode, uint32_t length, const uint8_t *p)
{
    meaning it = {0, 1, 0, 0, false, false, NULL, false};
    it.in_ram = opcode == OP_WRITE || opcode == OP_READ || opcode == OP_COPY || opcode == OP_RUN;
    it.in_flash = opcode == OP_COPY || opcode == OP_ERASE || opcode == OP_READ_QSPI || opcode == OP_DIRECT_WRITE;
    it.answers = opcode == OP_READ || opcode == OP_READ_QSPI;
    if (it.in_ram)
        it.ram = little(p, 4) - RAM_BASE;
    if (opcode == OP_ERASE || opcode == OP_READ_QSPI)
        it.flash = little(p, 4);
    if (opcode == OP_READ || opcode == OP_READ_QSPI || opcode == OP_COPY)
        it.count = little(p + 4, 2);
    if (opcode == OP_COPY)
        it.flash = little(p + 6, 4);
    if (opcode == OP_ERASE)
        it.count = little(p + 4, 4);
    if (opcode == OP_WRITE) {
        it.count = (int64_t)length - 4;
        it.data = p + 4;
    }
    if (opcode == OP_DIRECT_WRITE) {
        it.verify = p[0];
        it.flash = little(p + 1, 4);
        it.count = (int64_t)length - 5;
        it.data = p + 5;
    }
    return it;
}

/* 16: the first byte is outside; 21: the first byte is inside, the last one is not. */
static uint32_t judge_range(int64_t first, int64_t count, size_t length)
{
    if (first < 0 || first >= (int64_t)length)
        return 16;
    return first + count > (int64_t)length ? 21 : 0;
}

uint32_t model_judge(uint32_t opcode, uint32_t length, const model_memories *m)
{
    meaning it = meaning_of(opcode, length, m->work);
    if (it.verify > 1)
        return 14;
    if (it.count == 0)
        return 15;
    uint32_t in_ram = it.in_ram ? judge_range(it.ram, it.count, m->ram_length) : 0;
    if (in_ram)
        return in_ram;
    uint32_t in_flash = it.in_flash ? judge_range(it.flash, it.count, m->flash_length) : 0;
    if (in_flash)
        return in_flash;
    return it.answers && it.count > (int64_t)m->work_length ? 17 : 0;
}

/* A flash store leaves old AND new. */
static void flash_store(uint8_t *flash, const uint8_t *bytes, int64_t count)
{
    for (int64_t i = 0; i < count; i++)
        flash[i] = (uint8_t)(flash[i] & bytes[i]);
}

static void erase(const model_memories *m, int64_t offset, int64_t size)
{
    for (int64_t sector = 0; sector < (int64_t)m->flash_length; sector += SECTOR)
        if (sector < offset + size && offset < sector + SECTOR)
            memset(m->flash + sector, 0xFF, SECTOR);
}

model_outcome model_execute(uint32_t opcode, uint32_t length, const model_memories *m)
{
    model_outcome done = {model_judge(opcode, length, m), 0, false, 0};
    if (done.reason)
        return done;
    meaning it = meaning_of(opcode, length, m->work);
    switch (opcode) {
    case OP_WRITE: memcpy(m->ram + it.ram, it.data, (size_t)it.count); break;
    case OP_READ: memcpy(m->work, m->ram + it.ram, (size_t)it.count); break;
    case OP_COPY: flash_store(m->flash + it.flash, m->ram + it.ram, it.count); break;
    case OP_ERASE: erase(m, it.flash, it.count); break;
    case OP_READ_QSPI: memcpy(m->work, m->flash + it.flash, (size_t)it.count); break;
    case OP_VERSION: memcpy(m->work, "0.0.0.3", 7); break;
    case OP_CHIP_ERASE: memset(m->flash, 0xFF, m->flash_length); break;
    case OP_DIRECT_WRITE: flash_store(m->flash + it.flash, it.data, it.count); break;
    }
    if (opcode == OP_DIRECT_WRITE && it.verify == 1 && memcmp(m->flash + it.flash, it.data, (size_t)it.count) != 0)
        done.reason = 18;
    done.answer = opcode == OP_VERSION ? 7 : it.answers ? (uint32_t)it.count : 0;
    done.runs = opcode == OP_RUN;
    done.address = done.runs ? (uint32_t)(it.ram + RAM_BASE) : 0;
    return done;
}
