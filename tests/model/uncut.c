/* A session fed its whole stream, with room for every reply: it ends where a take finds the stream empty, or where code
   runs. */
#include "model.h"

#include <setjmp.h>
#include <stdlib.h>
#include <string.h>

typedef struct {
    const uint8_t *stream;
    size_t length, capacity;
    const model_memories *memories;
    model_ending ending;
    jmp_buf over;
} visit;

static uint8_t take(visit *v)
{
    if (v->ending.taken == v->length)
        longjmp(v->over, 1);
    return v->stream[v->ending.taken++];
}

static void send(visit *v, unsigned byte)
{
    model_ending *e = &v->ending;
    if (e->sent == v->capacity) {
        v->capacity = v->capacity * 2 + 64;
        e->replies = realloc(e->replies, v->capacity);
        if (!e->replies)
            abort();
    }
    e->replies[e->sent++] = (uint8_t)byte;
}

static void send_both(visit *v, unsigned number)
{
    send(v, number & 0xFF);
    send(v, number >> 8);
}

static unsigned take_both(visit *v)
{
    unsigned low = take(v);
    return low | (unsigned)take(v) << 8;
}

static void run(visit *v, uint32_t address)
{
    v->ending.over = true;
    v->ending.address = address;
}

static void refuse(visit *v, uint32_t reason)
{
    v->ending.reason = reason;
    send(v, NAK);
}

/* One pass of the receiver's flow. */
static void load(visit *v, uint32_t kind)
{
    uint8_t x = 0;
    send(v, 0x02);
    if (take(v) != 0x01) {
        refuse(v, 31);
        return;
    }
    size_t length = take_both(v);
    if (length == 0 && kind == KIND_P) {
        refuse(v, 32);
        return;
    }
    if (length == 0)
        length = 65536 + (size_t)take_both(v);
    if (length > v->memories->ram_length) {
        refuse(v, 33);
        return;
    }
    send(v, ACK);
    for (size_t i = 0; i < length; i++)
        x ^= v->memories->ram[i] = take(v);
    send(v, x);
    if (take(v) == ACK)
        run(v, RAM_BASE);
    else
        v->ending.reason = 34;
}

static void answer(visit *v, unsigned length)
{
    const uint8_t *work = v->memories->work;
    send_both(v, length);
    if (take(v) != ACK) {
        v->ending.reason = 20;
        return;
    }
    for (unsigned i = 0; i < length; i++)
        send(v, work[i]);
    if (take_both(v) == model_crc16(work, length))
        send(v, ACK);
    else
        refuse(v, 19);
}

/* Takes and acknowledges a payload. Says whether the host wants the command executed. */
static bool take_payload(visit *v, unsigned opcode, unsigned length)
{
    for (unsigned i = 0; i < length; i++)
        v->memories->work[i] = take(v);
    uint32_t reason = model_judge(opcode, length, v->memories);
    if (reason) {
        refuse(v, reason);
        return false;
    }
    send(v, ACK);
    send_both(v, model_crc16(v->memories->work, length));
    if (take(v) == ACK)
        return true;
    v->ending.reason = 20;
    return false;
}

/* One command, from its greeting on. */
static void command(visit *v)
{
    static const uint8_t greeting[] = {0x02, 0x01, 0x00, 0x03};
    for (size_t i = 0; i < sizeof greeting; i++)
        send(v, greeting[i]);
    while (take(v) != 0x01)
        ;
    unsigned opcode = take(v), length = take_both(v);
    if (!model_known(opcode) || !model_has_length(opcode, length) || length > v->memories->work_length) {
        refuse(v, !model_known(opcode) ? 11 : !model_has_length(opcode, length) ? 12 : 13);
        return;
    }
    send(v, ACK);
    if (length != 0 && !take_payload(v, opcode, length))
        return;
    model_outcome done = model_execute(opcode, length, v->memories);
    if (done.reason)
        refuse(v, done.reason);
    else if (done.answer)
        answer(v, done.answer);
    else if (done.runs)
        run(v, done.address);
}

model_ending model_uncut(uint32_t kind, const uint8_t *stream, size_t length, const model_memories *memories)
{
    visit *v = calloc(1, sizeof *v);
    if (!v)
        abort();
    v->stream = stream;
    v->length = length;
    v->memories = memories;
    if (setjmp(v->over) == 0)
        while (!v->ending.over)
            kind == KIND_UARTBOOT ? command(v) : load(v, kind);
    model_ending ending = v->ending;
    free(v);
    return ending;
}
