/* The uartboot session in plain C: the payload goes to the work buffer, its CRC is summed once for the two bytes that
   are sent. */
#include "plain.h"
#include "plain_command.h"

enum {
    GREETING,
    TAKE_SOH,
    TAKE_OPCODE,
    TAKE_LOW,
    TAKE_HIGH,
    SEND_ACK,
    TAKE_PAYLOAD,
    SEND_PAYLOAD_ACK,
    SEND_CRC_LOW,
    SEND_CRC_HIGH,
    TAKE_GO,
    SEND_LENGTH_LOW,
    SEND_LENGTH_HIGH,
    TAKE_ANSWER_GO,
    SEND_ANSWER,
    TAKE_CRC_LOW,
    TAKE_CRC_HIGH,
    SEND_ANSWER_ACK,
    SEND_NAK,
    RUNNING
};

static int is_sound(const uint32_t *r, const plain_memories *m)
{
    uint32_t phase = r[PHASE];
    if (r[KIND] != 2 || phase > RUNNING)
        return 0;
    if (phase == GREETING)
        return r[PLACE] < 4;
    if (r[PLACE] != 0 && ((phase != TAKE_PAYLOAD && phase != SEND_ANSWER) || r[PLACE] >= r[LENGTH]))
        return 0;
    if (phase == RUNNING)
        return r[OPCODE] == RUN && r[HELD] >= RAM_BASE && r[HELD] - RAM_BASE < m->ram_len;
    if (phase < SEND_ACK || phase == SEND_NAK)
        return 1;
    if (!plain_is_known(r[OPCODE]) || r[LENGTH] > m->work_len)
        return 0;
    if (phase <= TAKE_GO ? !plain_has_length(r[OPCODE], r[LENGTH]) : !plain_has_answer(r[OPCODE]))
        return 0;
    return r[LENGTH] != 0 || phase == SEND_ACK;
}

static void start_again(uint32_t *r, uint32_t phase, uint32_t reason)
{
    r[PHASE] = phase;
    r[REASON] = reason;
    r[OPCODE] = r[LENGTH] = r[PLACE] = r[HELD] = 0;
}

static void execute(uint32_t *r, const plain_memories *m)
{
    size_t answer = 0;
    uint32_t address = plain_number32(m->work);
    uint32_t reason = plain_execute(r[OPCODE], r[LENGTH], m, &answer);
    if (reason != 0)
        start_again(r, SEND_NAK, reason);
    else if (r[OPCODE] == RUN) {
        start_again(r, RUNNING, r[REASON]);
        r[OPCODE] = RUN;
        r[HELD] = address;
    } else if (answer == 0)
        start_again(r, GREETING, r[REASON]);
    else {
        r[PHASE] = SEND_LENGTH_LOW;
        r[LENGTH] = (uint32_t)answer;
    }
}

static void take_high(uint32_t *r, uint8_t byte, const plain_memories *m)
{
    size_t length = (size_t)r[HELD] + 256 * (size_t)byte;
    if (!plain_is_known(r[OPCODE]))
        start_again(r, SEND_NAK, 11);
    else if (!plain_has_length(r[OPCODE], length))
        start_again(r, SEND_NAK, 12);
    else if (length > m->work_len)
        start_again(r, SEND_NAK, 13);
    else {
        r[PHASE] = SEND_ACK;
        r[LENGTH] = (uint32_t)length;
        r[HELD] = 0;
    }
}

static void take_crc_high(uint32_t *r, uint8_t byte, const plain_memories *m)
{
    size_t crc = (size_t)r[HELD] + 256 * (size_t)byte;
    r[HELD] = 0;
    if (crc == plain.crc16(m->work, r[LENGTH]))
        r[PHASE] = SEND_ANSWER_ACK;
    else
        start_again(r, SEND_NAK, 19);
}

/* What a taken byte does, other than one of the payload. */
static void take(uint32_t *r, uint8_t byte, const plain_memories *m)
{
    switch (r[PHASE]) {
    case TAKE_SOH: r[PHASE] = byte == SOH ? TAKE_OPCODE : TAKE_SOH; break;
    case TAKE_OPCODE:
        r[OPCODE] = byte;
        r[PHASE] = TAKE_LOW;
        break;
    case TAKE_LOW:
    case TAKE_CRC_LOW:
        r[HELD] = byte;
        r[PHASE]++;
        break;
    case TAKE_HIGH: take_high(r, byte, m); break;
    case TAKE_GO:
        if (byte == ACK)
            execute(r, m);
        else
            start_again(r, GREETING, 20);
        break;
    case TAKE_ANSWER_GO:
        if (byte == ACK)
            r[PHASE] = SEND_ANSWER;
        else
            start_again(r, GREETING, 20);
        break;
    default: take_crc_high(r, byte, m); break;
    }
}

static size_t take_payload(uint32_t *r, const uint8_t *input, size_t input_len, const plain_memories *m)
{
    size_t count = r[LENGTH] - r[PLACE];
    if (count > input_len)
        count = input_len;
    plain.copy(m->work + r[PLACE], input, count);
    r[PLACE] += (uint32_t)count;
    if (r[PLACE] == r[LENGTH]) {
        uint32_t reason = plain_check(r[OPCODE], r[LENGTH], m);
        r[PHASE] = SEND_PAYLOAD_ACK;
        r[PLACE] = 0;
        if (reason != 0)
            start_again(r, SEND_NAK, reason);
    }
    return count;
}

static size_t send_answer(uint32_t *r, uint8_t *reply, size_t reply_len, const uint8_t *work)
{
    size_t count = r[LENGTH] - r[PLACE];
    if (count > reply_len)
        count = reply_len;
    plain.copy(reply, work + r[PLACE], count);
    r[PLACE] += (uint32_t)count;
    if (r[PLACE] == r[LENGTH]) {
        r[PHASE] = TAKE_CRC_LOW;
        r[PLACE] = 0;
    }
    return count;
}

static uint8_t send_greeting(uint32_t *r)
{
    static const uint8_t greeting[4] = {0x02, 0x01, 0x00, 0x03};
    uint8_t byte = greeting[r[PLACE]++];
    if (r[PLACE] == 4) {
        r[PHASE] = TAKE_SOH;
        r[PLACE] = 0;
    }
    return byte;
}

/* The 06 for a header: a command without payload is executed after it. */
static uint8_t send_ack(uint32_t *r, const plain_memories *m)
{
    if (r[LENGTH] == 0)
        execute(r, m);
    else
        r[PHASE] = TAKE_PAYLOAD;
    return ACK;
}

/* Sends one byte, other than one of the answer. */
static uint8_t send(uint32_t *r, const plain_memories *m)
{
    switch (r[PHASE]) {
    case GREETING: return send_greeting(r);
    case SEND_ACK: return send_ack(r, m);
    case SEND_PAYLOAD_ACK: r[PHASE] = SEND_CRC_LOW; return ACK;
    case SEND_CRC_LOW:
        r[PHASE] = SEND_CRC_HIGH;
        r[CRC] = plain.crc16(m->work, r[LENGTH]);
        return (uint8_t)r[CRC];
    case SEND_CRC_HIGH: r[PHASE] = TAKE_GO; return (uint8_t)(r[CRC] >> 8);
    case SEND_LENGTH_LOW: r[PHASE] = SEND_LENGTH_HIGH; return (uint8_t)r[LENGTH];
    case SEND_LENGTH_HIGH: r[PHASE] = TAKE_ANSWER_GO; return (uint8_t)(r[LENGTH] >> 8);
    case SEND_ANSWER_ACK: start_again(r, GREETING, r[REASON]); return ACK;
    default: start_again(r, GREETING, r[REASON]); return NAK;
    }
}

static int sends(uint32_t phase)
{
    return phase == GREETING || phase == SEND_ACK || (phase >= SEND_PAYLOAD_ACK && phase <= SEND_CRC_HIGH) ||
           phase == SEND_LENGTH_LOW || phase == SEND_LENGTH_HIGH || phase == SEND_ANSWER || phase == SEND_ANSWER_ACK ||
           phase == SEND_NAK;
}

static und_report act(uint32_t *r, const uint8_t *input, size_t input_len, uint8_t *reply, size_t reply_len,
                      const plain_memories *m)
{
    size_t taken = 0, sent = 0;
    for (;;) {
        uint32_t phase = r[PHASE];
        if (phase == RUNNING)
            return (und_report){0, 3, taken, sent};
        if (sends(phase)) {
            if (sent == reply_len)
                return (und_report){0, 2, taken, sent};
            if (phase == SEND_ANSWER)
                sent += send_answer(r, reply + sent, reply_len - sent, m->work);
            else
                reply[sent++] = send(r, m);
            continue;
        }
        if (taken == input_len)
            return (und_report){0, 1, taken, sent};
        if (phase == TAKE_PAYLOAD)
            taken += take_payload(r, input + taken, input_len - taken, m);
        else
            take(r, input[taken++], m);
    }
}

void plain_uartboot_fresh(uint32_t record[8])
{
    for (int i = 0; i < 8; i++)
        record[i] = 0;
    record[KIND] = 2;
}

und_report plain_uartboot_call(uint32_t record[8], const uint8_t *input, size_t input_len, uint8_t *reply,
                               size_t reply_len, uint8_t *ram, size_t ram_len, uint8_t *flash, size_t flash_len,
                               uint8_t *work, size_t work_len)
{
    plain_memories m = {ram, ram_len, flash, flash_len, work, work_len};
    if (work_len < 64 || work_len > 65535)
        return (und_report){1, 0, 0, 0};
    if (ram_len < 1 || ram_len > 131072)
        return (und_report){2, 0, 0, 0};
    if (flash_len == 0 || flash_len % 4096 != 0 || flash_len > 4194304)
        return (und_report){3, 0, 0, 0};
    if (!is_sound(record, &m))
        return (und_report){4, 0, 0, 0};
    return act(record, input, input_len, reply, reply_len, &m);
}
