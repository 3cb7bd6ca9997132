/* The host's end of uartboot in plain C: payload and answer are copied as they go and come, the answer's CRC is summed
   once where both of its bytes have room. */
#include "plain.h"
#include "plain_command.h"

enum {
    TAKE_GREETING,
    SEND_HEADER,
    TAKE_HEADER_ACK,
    SEND_PAYLOAD,
    TAKE_PAYLOAD_ACK,
    TAKE_CRC_LOW,
    TAKE_CRC_HIGH,
    SEND_ACK,
    SEND_NAK,
    TAKE_LENGTH_LOW,
    TAKE_LENGTH_HIGH,
    SEND_ANSWER_GO,
    TAKE_ANSWER,
    SEND_CRC_LOW,
    SEND_CRC_HIGH,
    TAKE_ANSWER_ACK,
    LOOK_FOR_STX,
    OVER
};

enum { FOUR = 4, MOST_PAYLOAD = 65535, VERSION_ANSWER = 7, COUNT_PLACE = 4 };

/* What is lent at each call beside the line. */
typedef struct {
    uint32_t opcode;
    const uint8_t *payload;
    size_t length;
    uint8_t *answer;
    size_t awaited; /* how many bytes of answer */
} command;

static size_t awaited_by(uint32_t opcode, const uint8_t *payload)
{
    if (opcode == VERSION)
        return VERSION_ANSWER;
    return plain_has_answer(opcode) ? plain_number16(payload + COUNT_PLACE) : 0;
}

/* How many places the phase has; none where the command doesn't have it. */
static size_t places(uint32_t phase, const command *c)
{
    int answers = plain_has_answer(c->opcode);
    switch (phase) {
    case TAKE_GREETING:
    case SEND_HEADER: return FOUR;
    case SEND_PAYLOAD: return c->length;
    case TAKE_ANSWER: return c->awaited;
    case TAKE_LENGTH_LOW:
    case TAKE_LENGTH_HIGH: return answers;
    case LOOK_FOR_STX: return !answers && c->opcode != RUN;
    case TAKE_HEADER_ACK:
    case OVER: return 1;
    default: return phase > OVER ? 0 : phase < TAKE_LENGTH_LOW ? c->length != 0 : c->awaited != 0;
    }
}

static void go_on(uint32_t *r, uint32_t phase)
{
    r[PHASE] = phase;
    r[PLACE] = r[HELD] = 0;
}

static void end(uint32_t *r, uint32_t reason)
{
    r[REASON] = reason;
    go_on(r, OVER);
}

static void end_at(uint32_t *r, uint8_t byte)
{
    end(r, byte == NAK ? 73 : 75);
}

static void expect(uint32_t *r, uint8_t byte, uint8_t awaited, uint32_t next)
{
    if (byte == awaited)
        go_on(r, next);
    else
        end_at(r, byte);
}

static void take_greeting(uint32_t *r, uint8_t byte)
{
    if (r[PLACE] == FOUR - 1)
        expect(r, byte, ETX, SEND_HEADER);
    else if (r[PLACE] == 0 && byte != STX)
        end_at(r, byte);
    else
        r[PLACE]++;
}

/* What comes once the device has all of the command. */
static uint32_t after_command(uint32_t opcode)
{
    return plain_has_answer(opcode) ? TAKE_LENGTH_LOW : opcode == RUN ? OVER : LOOK_FOR_STX;
}

static void take_crc_high(uint32_t *r, uint8_t byte, const command *c)
{
    if ((size_t)r[HELD] + 256 * (size_t)byte == plain.crc16(c->payload, c->length)) {
        go_on(r, SEND_ACK);
    } else {
        r[REASON] = 74;
        go_on(r, SEND_NAK);
    }
}

static void take_length_high(uint32_t *r, uint8_t byte, size_t awaited)
{
    size_t length = (size_t)r[HELD] + 256 * (size_t)byte;
    if (length == awaited && length != 0)
        go_on(r, SEND_ANSWER_GO);
    else
        end(r, 75);
}

static void hold(uint32_t *r, uint8_t byte)
{
    r[PHASE]++;
    r[HELD] = byte;
}

/* What a taken byte does, other than one of the answer. */
static void take_byte(uint32_t *r, uint8_t byte, const command *c)
{
    switch (r[PHASE]) {
    case TAKE_GREETING: take_greeting(r, byte); break;
    case TAKE_HEADER_ACK: expect(r, byte, ACK, c->length != 0 ? SEND_PAYLOAD : after_command(c->opcode)); break;
    case TAKE_PAYLOAD_ACK: expect(r, byte, ACK, TAKE_CRC_LOW); break;
    case TAKE_CRC_LOW: hold(r, byte); break;
    case TAKE_CRC_HIGH: take_crc_high(r, byte, c); break;
    case TAKE_LENGTH_LOW:
        if (byte == NAK && c->awaited % 256 != NAK)
            end(r, 73);
        else
            hold(r, byte);
        break;
    case TAKE_LENGTH_HIGH: take_length_high(r, byte, c->awaited); break;
    case TAKE_ANSWER_ACK: expect(r, byte, ACK, OVER); break;
    default: end_at(r, byte); break;
    }
}

static size_t take(uint32_t *r, const uint8_t *input, size_t input_len, const command *c)
{
    size_t count = 1;
    if (r[PHASE] != TAKE_ANSWER) {
        take_byte(r, input[0], c);
        return count;
    }
    count = c->awaited - r[PLACE];
    if (count > input_len)
        count = input_len;
    plain.copy(c->answer + r[PLACE], input, count);
    r[PLACE] += (uint32_t)count;
    if (r[PLACE] == c->awaited)
        go_on(r, SEND_CRC_LOW);
    return count;
}

static size_t send_payload(uint32_t *r, uint8_t *output, size_t room, const command *c)
{
    size_t count = c->length - r[PLACE];
    if (count > room)
        count = room;
    plain.copy(output, c->payload + r[PLACE], count);
    r[PLACE] += (uint32_t)count;
    if (r[PLACE] == c->length)
        go_on(r, TAKE_PAYLOAD_ACK);
    return count;
}

static size_t send_header(uint32_t *r, uint8_t *output, const command *c)
{
    const uint8_t header[FOUR] = {SOH, (uint8_t)c->opcode, (uint8_t)c->length, (uint8_t)(c->length >> 8)};
    *output = header[r[PLACE]++];
    if (r[PLACE] == FOUR)
        go_on(r, TAKE_HEADER_ACK);
    return 1;
}

static size_t send_crc(uint32_t *r, uint8_t *output, size_t room, const command *c)
{
    uint16_t crc = plain.crc16(c->answer, c->awaited);
    size_t sent = 0;
    if (r[PHASE] == SEND_CRC_LOW) {
        output[sent++] = (uint8_t)crc;
        go_on(r, SEND_CRC_HIGH);
    }
    if (sent < room) {
        output[sent++] = (uint8_t)(crc >> 8);
        go_on(r, TAKE_ANSWER_ACK);
    }
    return sent;
}

static size_t send_byte(uint32_t *r, uint8_t *output, uint8_t byte, uint32_t next)
{
    *output = byte;
    go_on(r, next);
    return 1;
}

static size_t send(uint32_t *r, uint8_t *output, size_t room, const command *c)
{
    switch (r[PHASE]) {
    case SEND_HEADER: return send_header(r, output, c);
    case SEND_PAYLOAD: return send_payload(r, output, room, c);
    case SEND_ACK: return send_byte(r, output, ACK, after_command(c->opcode));
    case SEND_NAK: return send_byte(r, output, NAK, OVER);
    case SEND_ANSWER_GO: return send_byte(r, output, ACK, TAKE_ANSWER);
    default: return send_crc(r, output, room, c);
    }
}

static int sends(uint32_t phase)
{
    return phase == SEND_HEADER || phase == SEND_PAYLOAD || phase == SEND_ACK || phase == SEND_NAK ||
           phase == SEND_ANSWER_GO || phase == SEND_CRC_LOW || phase == SEND_CRC_HIGH;
}

static und_report act(uint32_t *r, const uint8_t *input, size_t input_len, uint8_t *output, size_t output_len,
                      const command *c)
{
    size_t taken = 0, sent = 0;
    for (;;) {
        if (r[PHASE] == LOOK_FOR_STX && taken < input_len && input[taken] == STX)
            go_on(r, OVER);
        if (r[PHASE] == OVER)
            return (und_report){0, 3, taken, sent};
        if (sends(r[PHASE])) {
            if (sent == output_len)
                return (und_report){0, 2, taken, sent};
            sent += send(r, output + sent, output_len - sent, c);
        } else {
            if (taken == input_len)
                return (und_report){0, 1, taken, sent};
            taken += take(r, input + taken, input_len - taken, c);
        }
    }
}

void plain_host_fresh(uint32_t record[8])
{
    for (int i = 0; i < 8; i++)
        record[i] = 0;
    record[KIND] = 3;
}

und_report plain_host_call(uint32_t record[8], uint32_t opcode, const uint8_t *payload, size_t payload_len,
                           const uint8_t *input, size_t input_len, uint8_t *output, size_t output_len, uint8_t *answer,
                           size_t answer_len)
{
    if (!plain_is_known(opcode) || !plain_has_length(opcode, payload_len) || payload_len > MOST_PAYLOAD)
        return (und_report){71, 0, 0, 0};
    command c = {opcode, payload, payload_len, answer, awaited_by(opcode, payload)};
    if (answer_len < c.awaited)
        return (und_report){72, 0, 0, 0};
    if (record[KIND] != 3 || record[PLACE] >= places(record[PHASE], &c))
        return (und_report){4, 0, 0, 0};
    record[OPCODE] = record[LENGTH] = record[CRC] = 0;
    if (record[PHASE] != TAKE_CRC_HIGH && record[PHASE] != TAKE_LENGTH_HIGH)
        record[HELD] = 0;
    return act(record, input, input_len, output, output_len, &c);
}
