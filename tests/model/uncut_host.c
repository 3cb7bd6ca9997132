/* The host's end fed its whole stream, with room for all that it sends: it ends where a byte is awaited and none is
   left, or where the command is done or ended. */
#include "model.h"

#include <stdlib.h>
#include <string.h>

/* Each step says whether the talk goes on after it. */
typedef struct {
    const model_request *request;
    const uint8_t *stream;
    size_t length;
    model_ending ending;
} talk;

static bool end(talk *v, uint32_t reason)
{
    v->ending.reason = reason;
    v->ending.over = true;
    return false;
}

static void send(talk *v, const uint8_t *bytes, size_t count)
{
    if (count)
        memcpy(v->ending.replies + v->ending.sent, bytes, count);
    v->ending.sent += count;
}

static void send_both(talk *v, unsigned number)
{
    send(v, (const uint8_t[]){(uint8_t)number, (uint8_t)(number >> 8)}, 2);
}

/* The next `count` bytes, into `to` as far as they came. */
static bool take(talk *v, uint8_t *to, size_t count)
{
    size_t left = v->length - v->ending.taken, came = count < left ? count : left;
    if (came)
        memcpy(to, v->stream + v->ending.taken, came);
    v->ending.taken += came;
    return came == count;
}

/* One byte that must be this one. */
static bool awaits(talk *v, uint8_t right)
{
    uint8_t byte;
    if (!take(v, &byte, 1))
        return false;
    if (byte == right)
        return true;
    return end(v, byte == NAK ? 73 : 75);
}

static bool greeting(talk *v)
{
    uint8_t any[2];
    return awaits(v, 0x02) && take(v, any, 2) && awaits(v, 0x03);
}

static bool header(talk *v)
{
    send(v, (const uint8_t[]){0x01, (uint8_t)v->request->opcode}, 2);
    send_both(v, (unsigned)v->request->length);
    return awaits(v, ACK);
}

static bool payload(talk *v)
{
    const model_request *q = v->request;
    uint8_t crc[2];
    send(v, q->payload, q->length);
    if (!awaits(v, ACK) || !take(v, crc, 2))
        return false;
    bool right = (crc[0] | crc[1] << 8) == model_crc16(q->payload, q->length);
    send(v, (const uint8_t[]){right ? ACK : NAK}, 1);
    return right || end(v, 74);
}

static bool answer_length(talk *v, unsigned awaited)
{
    uint8_t low, high;
    if (!take(v, &low, 1))
        return false;
    if (low == NAK && (awaited & 0xFF) != NAK)
        return end(v, 73);
    if (!take(v, &high, 1))
        return false;
    return (awaited != 0 && low == (awaited & 0xFF) && high == awaited >> 8) || end(v, 75);
}

static bool answer(talk *v, uint8_t *buffer)
{
    unsigned awaited = model_awaited(v->request);
    if (!answer_length(v, awaited))
        return false;
    send(v, (const uint8_t[]){ACK}, 1);
    if (!take(v, buffer, awaited))
        return false;
    send_both(v, model_crc16(buffer, awaited));
    return awaits(v, ACK);
}

/* The device is ready for the next command; its 02 is not taken. */
static bool next_greeting(talk *v)
{
    if (!awaits(v, 0x02))
        return false;
    v->ending.taken--;
    return true;
}

model_ending model_uncut_host(const model_request *request, const uint8_t *stream, size_t length,
                              const model_memories *memories)
{
    enum { AROUND = 4 + 1 + 3 };
    talk v = {request, stream, length, {.replies = malloc(request->length + AROUND)}};
    if (!v.ending.replies)
        abort();
    if (!greeting(&v) || !header(&v) || (request->length != 0 && !payload(&v)))
        return v.ending;
    bool done =
        model_has_answer(request->opcode) ? answer(&v, memories->work) : request->opcode == OP_RUN || next_greeting(&v);
    v.ending.over |= done;
    return v.ending;
}
