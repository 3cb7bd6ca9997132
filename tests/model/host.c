/* The host's end of uartboot. */
#include "flow.h"
#include "little.h"
#include "model.h"
#include "record.h"

enum { LAST_PHASE = 17, GREETING_BYTES = 4, HEADER_BYTES = 4, LONGEST_PAYLOAD = 65535 };

static const uint32_t uses[LAST_PHASE + 1] = {
    [0] = USES(WORD_PLACE), [1] = USES(WORD_PLACE), [3] = USES(WORD_PLACE),
    [6] = USES(WORD_HELD),  [10] = USES(WORD_HELD), [12] = USES(WORD_PLACE),
};

uint32_t model_judge_request(const model_request *q)
{
    bool good = model_known(q->opcode) && model_has_length(q->opcode, q->length) && q->length <= LONGEST_PAYLOAD;
    return good ? 0 : 71;
}

uint32_t model_awaited(const model_request *q)
{
    if (!model_has_answer(q->opcode))
        return 0;
    return q->opcode == OP_VERSION ? 7 : (uint32_t)little(q->payload + 4, 2);
}

static bool sound(const uint32_t s[WORDS], const model_request *q)
{
    uint64_t length = q->length, payload = length > 0, answer = model_has_answer(q->opcode), awaited = model_awaited(q),
             filled = awaited > 0, silent = !answer && q->opcode != OP_RUN;
    /* How many bytes each phase takes, sends or looks for; none where the command does not have it. */
    const uint64_t bytes[LAST_PHASE + 1] = {
        GREETING_BYTES, HEADER_BYTES, 1,      length,  payload, payload, payload, payload, payload,
        answer,         answer,       filled, awaited, filled,  filled,  filled,  silent,  1,
    };
    return s[WORD_KIND] == KIND_HOST && s[WORD_PHASE] <= LAST_PHASE && s[WORD_PLACE] < bytes[s[WORD_PHASE]];
}

static uint32_t end(uint32_t *s, uint32_t reason)
{
    s[WORD_REASON] = reason;
    return go_on(s, 17);
}

/* A byte where 02, 03 or 06 is awaited, and another one came. */
static uint32_t end_at(uint32_t *s, uint8_t byte)
{
    return end(s, byte == NAK ? 73 : 75);
}

/* Once the device has the whole command. */
static uint32_t after_command(uint32_t *s, const model_request *q)
{
    return go_on(s, model_has_answer(q->opcode) ? 9 : q->opcode == OP_RUN ? 17 : 16);
}

/* Greeting, header, the header's 06. */
static uint32_t header(uint32_t *s, model_line *l, const model_request *q)
{
    const uint8_t bytes[HEADER_BYTES] = {0x01, (uint8_t)q->opcode, q->length % 256, (uint8_t)(q->length / 256)};
    uint8_t b = 0;
    switch (s[WORD_PHASE]) {
    default:
        for (; s[WORD_PLACE] < GREETING_BYTES; s[WORD_PLACE]++) {
            TAKE(0, b);
            if ((s[WORD_PLACE] == 0 && b != 0x02) || (s[WORD_PLACE] == 3 && b != 0x03))
                return end_at(s, b);
        }
        for (s[WORD_PLACE] = 0; s[WORD_PLACE] < HEADER_BYTES; s[WORD_PLACE]++)
            SEND(1, bytes[s[WORD_PLACE]]);
        TAKE(2, b);
    }
    if (b != ACK)
        return end_at(s, b);
    s[WORD_PLACE] = 0;
    return q->length > 0 ? go_on(s, 3) : after_command(s, q);
}

/* The payload, its 06, the device's CRC of it, the host's 06 or 15. */
static uint32_t payload(uint32_t *s, model_line *l, const model_request *q)
{
    uint8_t b = 0;
    switch (s[WORD_PHASE]) {
    default:
        for (; s[WORD_PLACE] < q->length; s[WORD_PLACE]++)
            SEND(3, q->payload[s[WORD_PLACE]]);
        TAKE(4, b);
        if (b != ACK)
            return end_at(s, b);
        TAKE(5, s[WORD_HELD]);
        TAKE(6, b);
        if ((uint64_t)s[WORD_HELD] + 256u * b != model_crc16(q->payload, q->length)) {
            s[WORD_REASON] = 74;
            SEND(8, NAK);
            return go_on(s, 17);
        }
        SEND(7, ACK);
    }
    return after_command(s, q);
}

/* The answer's length, 06, the answer, the host's CRC of it, the device's 06. */
static uint32_t answer(uint32_t *s, model_line *l, const model_request *q, const model_memories *m)
{
    uint32_t awaited = model_awaited(q);
    uint8_t b = 0;
    switch (s[WORD_PHASE]) {
    default:
        TAKE(9, b);
        if (b == NAK && awaited % 256 != NAK)
            return end(s, 73);
        s[WORD_HELD] = b;
        TAKE(10, b);
        if (awaited == 0 || (uint64_t)s[WORD_HELD] + 256u * b != awaited)
            return end(s, 75);
        SEND(11, ACK);
        for (s[WORD_PLACE] = 0; s[WORD_PLACE] < awaited; s[WORD_PLACE]++)
            TAKE(12, m->work[s[WORD_PLACE]]);
        SEND(13, model_crc16(m->work, awaited) % 256);
        SEND(14, model_crc16(m->work, awaited) / 256);
        TAKE(15, b);
    }
    return b == ACK ? go_on(s, 17) : end_at(s, b);
}

/* The next greeting's 02, which is left for who comes next. */
static uint32_t next_greeting(uint32_t *s, model_line *l)
{
    uint8_t b = 0;
    switch (s[WORD_PHASE]) {
    default: SEE(16, b);
    }
    if (b == 0x02)
        return go_on(s, 17);
    l->taken++;
    return end_at(s, b);
}

static uint32_t follow(uint32_t *s, model_line *l, const model_request *q, const model_memories *m)
{
    uint32_t standing = 0;
    while (standing == 0) {
        uint32_t phase = s[WORD_PHASE];
        standing = phase <= 2    ? header(s, l, q)
                   : phase <= 8  ? payload(s, l, q)
                   : phase <= 15 ? answer(s, l, q, m)
                   : phase == 16 ? next_greeting(s, l)
                                 : OVER;
    }
    return standing;
}

model_report model_host_call(uint32_t record[WORDS], model_line *line, const model_request *request,
                             const model_memories *memories)
{
    uint32_t number = model_judge_request(request);
    if (!number && memories->work_length < model_awaited(request))
        number = 72;
    if (!number && !sound(record, request))
        number = 4;
    if (number)
        return (model_report){number, 0, 0, 0};
    uint32_t standing = follow(record, line, request, memories);
    keep_only(record, uses[record[WORD_PHASE]]);
    return (model_report){0, standing, line->taken, line->sent};
}
