/* The uartboot session. */
#include "flow.h"
#include "model.h"
#include "record.h"

#include <string.h>

enum { LAST_PHASE = 19 };
enum { USES_COMMAND = USES(WORD_OPCODE) | USES(WORD_LENGTH) };

static const uint8_t greeting[4] = {0x02, 0x01, 0x00, 0x03};

static const uint32_t uses[LAST_PHASE + 1] = {
    [0] = USES(WORD_PLACE),
    [3] = USES(WORD_OPCODE),
    [4] = USES(WORD_OPCODE) | USES(WORD_HELD),
    [5] = USES_COMMAND,
    [6] = USES_COMMAND | USES(WORD_PLACE),
    [7] = USES_COMMAND,
    [8] = USES_COMMAND,
    [9] = USES_COMMAND,
    [10] = USES_COMMAND,
    [11] = USES_COMMAND,
    [12] = USES_COMMAND,
    [13] = USES_COMMAND,
    [14] = USES_COMMAND | USES(WORD_PLACE),
    [15] = USES_COMMAND,
    [16] = USES_COMMAND | USES(WORD_HELD),
    [17] = USES_COMMAND,
    [19] = USES(WORD_OPCODE) | USES(WORD_HELD),
};

bool model_work_length(size_t length)
{
    return length >= LEAST_WORK && length <= MOST_WORK;
}

void model_fresh(uint32_t kind, uint32_t record[WORDS])
{
    memset(record, 0, WORDS * sizeof *record);
    record[WORD_KIND] = kind;
}

/* How many bytes the phase takes or sends. */
static uint32_t bytes_of(const uint32_t s[WORDS])
{
    switch (s[WORD_PHASE]) {
    case 0: return sizeof greeting;
    case 6:
    case 14: return s[WORD_LENGTH];
    case 19: return 0;
    default: return 1;
    }
}

static bool sound(const uint32_t s[WORDS], const model_memories *m)
{
    uint32_t phase = s[WORD_PHASE], opcode = s[WORD_OPCODE], length = s[WORD_LENGTH];
    if (s[WORD_KIND] != KIND_UARTBOOT || phase > LAST_PHASE || !has_place(s, bytes_of(s)))
        return false;
    if (phase < 5 || phase == 18) /* opcode and length do not count */
        return true;
    if (phase == 19)
        return opcode == OP_RUN && runs_in_ram(s, m->ram_length);
    if (length > m->work_length || (length == 0 && phase != 5))
        return false;
    return phase <= 10 ? model_has_length(opcode, length) : model_has_answer(opcode);
}

static uint32_t header_reason(uint32_t opcode, uint64_t length, size_t work_length)
{
    if (!model_known(opcode))
        return 11;
    if (!model_has_length(opcode, length))
        return 12;
    return length > work_length ? 13 : 0;
}

static uint32_t refuse(uint32_t *s, uint32_t reason)
{
    s[WORD_REASON] = reason;
    return go_on(s, 18);
}

static uint32_t greet_again(uint32_t *s)
{
    s[WORD_PLACE] = 0;
    return go_on(s, 0);
}

/* Step 1 (rules, 6.1), up to its 06 or 15. */
static uint32_t header(uint32_t *s, model_line *l, const model_memories *m)
{
    uint8_t b = 0;
    switch (s[WORD_PHASE]) {
    default:
        for (; s[WORD_PLACE] < sizeof greeting; s[WORD_PLACE]++)
            SEND(0, greeting[s[WORD_PLACE]]);
        do
            TAKE(1, b);
        while (b != 0x01);
        TAKE(2, s[WORD_OPCODE]);
        TAKE(3, s[WORD_HELD]);
        TAKE(4, b);
    }
    uint64_t length = (uint64_t)s[WORD_HELD] + 256u * b;
    uint32_t reason = header_reason(s[WORD_OPCODE], length, m->work_length);
    if (reason)
        return refuse(s, reason);
    s[WORD_LENGTH] = (uint32_t)length;
    return go_on(s, 5);
}

/* Step 3 (rules, 6.3). */
static uint32_t execute(uint32_t *s, const model_memories *m)
{
    model_outcome done = model_execute(s[WORD_OPCODE], s[WORD_LENGTH], m);
    if (done.reason)
        return refuse(s, done.reason);
    if (done.runs) {
        s[WORD_HELD] = done.address;
        return go_on(s, 19);
    }
    if (done.answer == 0)
        return greet_again(s);
    s[WORD_LENGTH] = done.answer;
    return go_on(s, 11);
}

/* The header's 06, and step 2 (rules, 6.2). */
static uint32_t command(uint32_t *s, model_line *l, const model_memories *m)
{
    uint8_t b = 0;
    uint32_t reason;
    switch (s[WORD_PHASE]) {
    default:
        SEND(5, ACK);
        if (s[WORD_LENGTH] == 0)
            return execute(s, m);
        for (s[WORD_PLACE] = 0; s[WORD_PLACE] < s[WORD_LENGTH]; s[WORD_PLACE]++)
            TAKE(6, m->work[s[WORD_PLACE]]);
        reason = model_judge(s[WORD_OPCODE], s[WORD_LENGTH], m);
        if (reason)
            return refuse(s, reason);
        SEND(7, ACK);
        SEND(8, model_crc16(m->work, s[WORD_LENGTH]) % 256);
        SEND(9, model_crc16(m->work, s[WORD_LENGTH]) / 256);
        TAKE(10, b);
    }
    if (b == ACK)
        return execute(s, m);
    s[WORD_REASON] = 20;
    return greet_again(s);
}

/* Step 4 (rules, 6.4). */
static uint32_t answer(uint32_t *s, model_line *l, const model_memories *m)
{
    uint8_t b = 0;
    switch (s[WORD_PHASE]) {
    default:
        SEND(11, s[WORD_LENGTH] % 256);
        SEND(12, s[WORD_LENGTH] / 256);
        TAKE(13, b);
        if (b != ACK) {
            s[WORD_REASON] = 20;
            return greet_again(s);
        }
        for (s[WORD_PLACE] = 0; s[WORD_PLACE] < s[WORD_LENGTH]; s[WORD_PLACE]++)
            SEND(14, m->work[s[WORD_PLACE]]);
        TAKE(15, s[WORD_HELD]);
        TAKE(16, b);
        if ((uint64_t)s[WORD_HELD] + 256u * b != model_crc16(m->work, s[WORD_LENGTH]))
            return refuse(s, 19);
        SEND(17, ACK);
    }
    return greet_again(s);
}

static uint32_t refusal(uint32_t *s, model_line *l)
{
    switch (s[WORD_PHASE]) {
    default: SEND(18, NAK);
    }
    return greet_again(s);
}

static uint32_t follow(uint32_t *s, model_line *l, const model_memories *m)
{
    uint32_t standing = 0;
    while (standing == 0) {
        uint32_t phase = s[WORD_PHASE];
        standing = phase <= 4    ? header(s, l, m)
                   : phase <= 10 ? command(s, l, m)
                   : phase <= 17 ? answer(s, l, m)
                   : phase == 18 ? refusal(s, l)
                                 : RUNS;
    }
    return standing;
}

uint32_t model_judge_memories(const model_memories *memories)
{
    return !model_work_length(memories->work_length)     ? 1
           : !model_ram_length(memories->ram_length)     ? 2
           : !model_flash_length(memories->flash_length) ? 3
                                                         : 0;
}

model_report model_uartboot_call(uint32_t record[WORDS], model_line *line, const model_memories *memories)
{
    uint32_t number = model_judge_memories(memories);
    if (number == 0 && !sound(record, memories))
        number = 4;
    if (number)
        return (model_report){number, 0, 0, 0};
    uint32_t standing = follow(record, line, memories);
    keep_only(record, uses[record[WORD_PHASE]]);
    return (model_report){0, standing, line->taken, line->sent};
}
