/* A ROM load, and a uartboot command with its whole exchange: greeting, header, payload, CRC, 06, answer, the host's
   CRC. */
#include "plain.h"
#include "plain_command.h"
#include "subjects.h"

#include <stdlib.h>
#include <string.h>

enum {
    RAM = 131072,
    FLASH = 131072,
    WORK = 65535,
    INPUT = 131072 + 64,
    REPLY = 65535 + 64,
    TARGET = 3072 /* where in RAM and flash a command writes or reads */
};

/* What the library has, and what plain C has. */
typedef struct {
    uint32_t record[8];
    uint8_t *ram, *flash, *work, *reply;
    uint32_t standing;
    size_t taken, sent;
} side;

static side ours, theirs;
static uint8_t *input;
static size_t input_len;

/* Buffers between which bytes are copied begin at different places of their pages. A copy between two that begin at the
   same place would at times be slowed down by loads that seem to hit earlier stores, and not alike for the library and
   plain C. */
static void make_room(side *d)
{
    d->ram = room_at(2048, RAM);
    d->flash = room_at(2048, FLASH);
    d->work = room_at(3072, WORK);
    d->reply = room_at(1024, REPLY);
}

static void put(uint32_t number, int bytes)
{
    for (; bytes > 0; bytes--, number >>= 8)
        input[input_len++] = (uint8_t)number;
}

static void put_some(size_t count)
{
    some_bytes(input + input_len, count);
    input_len += count;
}

/* A command that writes: its payload has `size` bytes. */
static void put_write(uint32_t opcode, size_t size)
{
    put((uint32_t)size, 2);
    if (opcode == DIRECT_WRITE) {
        put(1, 1);
        put(TARGET, 4);
        put_some(size - 5);
    } else {
        put(RAM_BASE + TARGET, 4);
        put_some(size - 4);
    }
    put(ACK, 1);
}

/* A command that reads: its answer has `size` bytes. */
static void put_read(uint32_t opcode, size_t size)
{
    const uint8_t *memory = opcode == READ ? ours.ram : ours.flash;
    put(6, 2);
    put(opcode == READ ? RAM_BASE + TARGET : TARGET, 4);
    put((uint32_t)size, 2);
    put(ACK, 1);
    put(ACK, 1);
    put(plain_crc16_table(memory + TARGET, size), 2);
}

static void put_command(uint32_t opcode, size_t size)
{
    input_len = 0;
    put(SOH, 1);
    put(opcode, 1);
    if (opcode == WRITE || opcode == DIRECT_WRITE)
        put_write(opcode, size);
    else
        put_read(opcode, size);
}

static void put_frame(size_t size)
{
    uint8_t *code = malloc(size);
    if (code == NULL)
        exit(1);
    some_bytes(code, size);
    input_len = und_frame_e(code, size, input, INPUT).length;
    free(code);
}

/* Erased flash for the writes, so that verify finds what was written. */
void session_prepare(const subject *s, size_t size)
{
    if (input == NULL) {
        input = room_at(0, INPUT);
        make_room(&ours);
        make_room(&theirs);
    }
    some_bytes(ours.ram, RAM);
    some_bytes(ours.flash, FLASH);
    if (s->opcode == DIRECT_WRITE)
        memset(ours.flash, 0xFF, FLASH);
    memset(ours.work, 0, WORK);
    memset(ours.reply, 0, REPLY);
    memcpy(theirs.ram, ours.ram, RAM);
    memcpy(theirs.flash, ours.flash, FLASH);
    memset(theirs.work, 0, WORK);
    memset(theirs.reply, 0, REPLY);
    if (s->opcode == 0)
        put_frame(size);
    else
        put_command(s->opcode, size);
}

static size_t part(size_t left, size_t piece)
{
    return piece != 0 && piece < left ? piece : left;
}

/* Whether there is more to do at a standing: room is wanted, or a byte and there are more. A refused call's standing is
   0. */
static int goes_on(uint32_t standing, size_t left)
{
    return standing == 2 || (standing == 1 && left > 0);
}

static void keep(side *d, uint32_t standing, size_t taken, size_t sent)
{
    d->standing = standing;
    d->taken = taken;
    d->sent = sent;
}

typedef und_report rom_call(uint32_t *, const uint8_t *, size_t, uint8_t *, size_t, uint8_t *, size_t);
typedef und_report uartboot_call(uint32_t *, const uint8_t *, size_t, uint8_t *, size_t, uint8_t *, size_t, uint8_t *,
                                 size_t, uint8_t *, size_t);

static void load(side *d, size_t piece, rom_call *call)
{
    size_t taken = 0, sent = 0;
    for (;;) {
        und_report r = call(d->record, input + taken, part(input_len - taken, piece), d->reply + sent,
                            part(REPLY - sent, piece), d->ram, RAM);
        taken += r.taken;
        sent += r.sent;
        if (!goes_on(r.standing, input_len - taken)) {
            keep(d, r.standing, taken, sent);
            return;
        }
    }
}

static void talk(side *d, size_t piece, uartboot_call *call)
{
    size_t taken = 0, sent = 0;
    for (;;) {
        und_report r = call(d->record, input + taken, part(input_len - taken, piece), d->reply + sent,
                            part(REPLY - sent, piece), d->ram, RAM, d->flash, FLASH, d->work, WORK);
        taken += r.taken;
        sent += r.sent;
        if (!goes_on(r.standing, input_len - taken)) {
            keep(d, r.standing, taken, sent);
            return;
        }
    }
}

void session_library(const subject *s)
{
    if (s->opcode == 0) {
        und_rom_fresh(1, ours.record);
        load(&ours, s->piece, und_rom_call);
    } else {
        und_uartboot_fresh(ours.record);
        talk(&ours, s->piece, und_uartboot_call);
    }
}

void session_plain(const subject *s)
{
    if (s->opcode == 0) {
        plain_rom_fresh(1, theirs.record);
        load(&theirs, s->piece, plain_rom_call);
    } else {
        plain_uartboot_fresh(theirs.record);
        talk(&theirs, s->piece, plain_uartboot_call);
    }
}

/* The same, and as meant: all was taken and there was no reason against it. */
int session_same(void)
{
    return ours.taken == input_len && ours.standing != 0 && ours.record[REASON] == 0 && theirs.taken == ours.taken &&
           theirs.sent == ours.sent && theirs.standing == ours.standing &&
           memcmp(theirs.record, ours.record, CRC * sizeof ours.record[0]) == 0 &&
           memcmp(theirs.ram, ours.ram, RAM) == 0 && memcmp(theirs.flash, ours.flash, FLASH) == 0 &&
           memcmp(theirs.work, ours.work, WORK) == 0 && memcmp(theirs.reply, ours.reply, REPLY) == 0;
}
