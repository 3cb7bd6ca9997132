#include "streams.h"

#include "fill.h"

#include <string.h>

/* A length for the receiver's header: 0 to 131,071. */
static uint32_t plan_load(trial *t, const model_memories *m)
{
    uint64_t edges[] = {1, m->ram_length, 0, 65535, 65536, 131071, 255, 256};
    uint32_t length = (uint32_t)m->ram_length;
    if (!once_in(t->c, 3))
        return 1 + pick(t->c, length < 300 || once_in(t->c, 4) ? length : 300);
    return (uint32_t)near_edges(t->c, edges, sizeof edges / sizeof *edges) & 0x1FFFF;
}

static void play_header(lead *g)
{
    uint32_t length = plan_load(g->t, g->memories);
    bool extended = g->record[WORD_KIND] == KIND_E && (length > 65535 || length == 0);
    uint8_t field[5] = {0x01};
    put_little(field + (extended ? 3 : 1), 2, length);
    field[0] = (uint8_t)or_other(g->t, 0x01, 12);
    play_all(g, field, field[0] != 0x01 ? 1 : extended ? 5 : 3);
}

static void play_code(lead *g)
{
    static uint8_t code[MOST_RAM];
    uint32_t left = g->record[WORD_LENGTH] - g->record[WORD_PLACE];
    fill(g->t->c, code, left);
    play_all(g, code, left);
}

void play_rom(trial *t, stream *s, uint32_t record[WORDS], const model_memories *memories, uint32_t loads)
{
    lead g = {t, s, record, NULL, memories};
    play_all(&g, NULL, 0);
    while (loads > 0 && record[WORD_PHASE] != 11) {
        switch (record[WORD_PHASE]) {
        case 1:
            play_header(&g);
            loads--;
            break;
        case 7: play_code(&g); break;
        case 9: play(&g, or_other(t, ACK, 4)); break;
        default: play(&g, once_in(t->c, 2) ? pick(t->c, 256) : pick(t->c, 3)); break;
        }
    }
}

static uint32_t plan_count(trial *t, const model_memories *m, uint64_t memory_length, uint64_t first)
{
    uint64_t rest = first < memory_length ? memory_length - first : 0;
    uint64_t edges[] = {rest, 0, m->work_length, 65535, SECTOR, memory_length};
    if (!once_in(t->c, 3))
        return 1 + pick(t->c, once_in(t->c, 6) ? 1024 : 24);
    return (uint32_t)near_edges(t->c, edges, sizeof edges / sizeof *edges);
}

/* A place in a memory whose first byte has an address, mostly a place that it has; addresses end at 2^32 - 1. */
static uint64_t plan_place(trial *t, uint64_t memory_length, uint64_t first_address)
{
    uint64_t edges[] = {0, memory_length, SECTOR, 2 * SECTOR, 0xFFFFFFFF - first_address, 0x7FFFFFFF};
    if (!once_in(t->c, 3))
        return pick(t->c, memory_length < 64 || once_in(t->c, 3) ? (uint32_t)memory_length : 64);
    return near_edges(t->c, edges, sizeof edges / sizeof *edges);
}

static uint32_t plan_data(trial *t, const model_memories *m, uint32_t head)
{
    if (!once_in(t->c, 12))
        return 1 + pick(t->c, once_in(t->c, 4) ? 200 : 12);
    return (uint32_t)m->work_length - head - 1 + pick(t->c, 3);
}

/* The numbers that come before data: each with its width, in the payload's order. */
static uint32_t put_numbers(planned *p, const uint64_t *numbers, const int *widths, int count)
{
    uint32_t at = 0;
    for (int i = 0; i < count; i++) {
        put_little(p->payload + at, widths[i], numbers[i]);
        at += (uint32_t)widths[i];
    }
    return at;
}

bool takes_data(uint8_t opcode)
{
    return opcode == OP_WRITE || opcode == OP_DIRECT_WRITE;
}

void put_command(planned *p, uint64_t address, uint64_t offset, uint64_t count, uint64_t verify)
{
    memset(p->payload, 0, sizeof p->payload);
    switch (p->opcode) {
    case OP_WRITE:
    case OP_RUN: p->length = put_numbers(p, (uint64_t[]){address}, (int[]){4}, 1); break;
    case OP_READ: p->length = put_numbers(p, (uint64_t[]){address, count}, (int[]){4, 2}, 2); break;
    case OP_READ_QSPI: p->length = put_numbers(p, (uint64_t[]){offset, count}, (int[]){4, 2}, 2); break;
    case OP_ERASE: p->length = put_numbers(p, (uint64_t[]){offset, count}, (int[]){4, 4}, 2); break;
    case OP_COPY: p->length = put_numbers(p, (uint64_t[]){address, count, offset}, (int[]){4, 2, 4}, 3); break;
    case OP_DIRECT_WRITE: p->length = put_numbers(p, (uint64_t[]){verify, offset}, (int[]){1, 4}, 2); break;
    default: p->length = 0; break;
    }
}

void plan_payload(trial *t, planned *p, const model_memories *m)
{
    uint64_t ram = plan_place(t, m->ram_length, RAM_BASE), flash = plan_place(t, m->flash_length, 0);
    uint64_t verify = once_in(t->c, 8) ? pick(t->c, 256) : pick(t->c, 2);
    bool in_flash = p->opcode == OP_ERASE || p->opcode == OP_READ_QSPI;
    uint64_t count = in_flash ? plan_count(t, m, m->flash_length, flash) : plan_count(t, m, m->ram_length, ram);
    put_command(p, RAM_BASE + ram, flash, count, verify);
    if (!takes_data(p->opcode))
        return;
    uint32_t data = plan_data(t, m, p->length);
    fill(t->c, p->payload + p->length, data);
    p->length += data;
}

void plan_bad_count(trial *t, planned *p, const model_memories *memories)
{
    enum { COUNT_PLACE = 4 };
    bool ram = p->opcode == OP_READ || p->opcode == OP_COPY, flash = p->opcode == OP_READ_QSPI || p->opcode == OP_ERASE;
    uint64_t counts[] = {0, memories->work_length + 1};
    if (!ram && !flash)
        return;
    put_little(p->payload, 4, ram ? RAM_BASE : 0);
    put_little(p->payload + COUNT_PLACE, p->opcode == OP_ERASE ? 4 : 2, PICK_OF(t->c, counts));
}

void plan_command(trial *t, planned *p, const model_memories *memories)
{
    static const uint8_t opcodes[] = {
        OP_VERSION, OP_WRITE, OP_READ, OP_COPY,  OP_ERASE,        OP_DIRECT_WRITE, OP_READ_QSPI,    OP_CHIP_ERASE,
        OP_WRITE,   OP_READ,  OP_COPY, OP_ERASE, OP_DIRECT_WRITE, OP_READ_QSPI,    OP_DIRECT_WRITE, OP_RUN,
    };
    static const uint8_t strangers[] = {0x00, 0x06, 0x07, 0x09, 0x0A, 0x0D, 0x0F, 0x11, 0x13, 0x81, 0xFF};
    p->opcode = PICK_OF(t->c, opcodes);
    plan_payload(t, p, memories);
    if (once_in(t->c, 20))
        p->opcode = PICK_OF(t->c, strangers);
    if (once_in(t->c, 16))
        p->length = pick(t->c, 2) ? pick(t->c, 12) : (uint32_t)memories->work_length + 1;
}

void play_planned(lead *g, const planned *p)
{
    uint8_t header[4] = {0x01, p->opcode, (uint8_t)p->length, (uint8_t)(p->length >> 8)};
    play_all(g, header, sizeof header);
    if (g->record[WORD_PHASE] == 6 && g->record[WORD_LENGTH] == p->length)
        play_all(g, p->payload, p->length);
}

static void play_command(lead *g)
{
    static planned p;
    trial *t = g->t;
    while (once_in(t->c, 8))
        play(g, once_in(t->c, 2) ? pick(t->c, 256) : 0x06);
    if (g->record[WORD_PHASE] != 1)
        return;
    plan_command(t, &p, g->memories);
    play_planned(g, &p);
}

/* What a session in the middle of a command waits for. */
static void play_on(lead *g)
{
    static planned p;
    trial *t = g->t;
    uint32_t length = g->record[WORD_LENGTH], place = g->record[WORD_PLACE];
    uint16_t crc = model_crc16(g->memories->work, length <= g->memories->work_length ? length : 0);
    switch (g->record[WORD_PHASE]) {
    case 6:
        p.opcode = (uint8_t)g->record[WORD_OPCODE];
        plan_payload(t, &p, g->memories);
        play_all(g, p.payload + place, length - place);
        break;
    case 10:
    case 13: play(g, or_other(t, ACK, 12)); break;
    case 15: play(g, or_other(t, crc % 256u, 12)); break;
    case 16: play(g, or_other(t, crc / 256u, 12)); break;
    default: play(g, once_in(t->c, 2) ? pick(t->c, 256) : pick(t->c, 12)); break;
    }
}

void play_uartboot(trial *t, stream *s, uint32_t record[WORDS], const model_memories *memories, uint32_t commands)
{
    lead g = {t, s, record, NULL, memories};
    play_all(&g, NULL, 0);
    while (record[WORD_PHASE] != 19) {
        if (record[WORD_PHASE] != 1) {
            play_on(&g);
            continue;
        }
        if (commands-- == 0)
            return;
        play_command(&g);
    }
}

void spoil(trial *t, stream *s)
{
    if (once_in(t->c, 4) && s->length > 0)
        s->length = pick(t->c, (uint32_t)s->length);
    if (once_in(t->c, 10) && s->length > 0) {
        uint8_t *byte = &s->bytes[pick(t->c, (uint32_t)s->length)];
        *byte = (uint8_t)pick(t->c, 256);
    }
    while (once_in(t->c, 4))
        stream_add(s, (uint8_t)pick(t->c, 256));
}
