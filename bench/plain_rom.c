/* The boot ROM's receiver in plain C: code goes to RAM as it arrives, its XOR is summed when it is to be sent. */
#include "plain.h"

enum {
    SEND_STX,
    TAKE_SOH,
    TAKE_LOW,
    TAKE_HIGH,
    TAKE_EXTENDED_LOW,
    TAKE_EXTENDED_HIGH,
    SEND_ACK,
    TAKE_CODE,
    SEND_XOR,
    TAKE_ACK,
    SEND_NAK,
    RUNNING
};

static int is_sound(const uint32_t *r, size_t ram_len)
{
    if (r[KIND] > 1 || r[PHASE] > RUNNING)
        return 0;
    if (r[KIND] == 0 && (r[PHASE] == TAKE_EXTENDED_LOW || r[PHASE] == TAKE_EXTENDED_HIGH))
        return 0;
    if (r[PLACE] != 0 && (r[PHASE] != TAKE_CODE || r[PLACE] >= r[LENGTH]))
        return 0;
    if (r[PHASE] == RUNNING)
        return r[HELD] >= RAM_BASE && r[HELD] - RAM_BASE < ram_len;
    if (r[PHASE] < SEND_ACK || r[PHASE] > TAKE_ACK)
        return 1;
    return r[LENGTH] != 0 && r[LENGTH] <= ram_len;
}

static void refuse(uint32_t *r, uint32_t reason)
{
    r[PHASE] = SEND_NAK;
    r[REASON] = reason;
    r[LENGTH] = r[PLACE] = r[HELD] = 0;
}

/* A length that is not 0 has come. */
static void judge(uint32_t *r, size_t length, size_t ram_len)
{
    if (length > ram_len) {
        refuse(r, 33);
        return;
    }
    r[PHASE] = SEND_ACK;
    r[LENGTH] = (uint32_t)length;
    r[HELD] = 0;
}

static void take_high(uint32_t *r, uint8_t byte, size_t ram_len)
{
    size_t length = (size_t)r[HELD] + 256 * (size_t)byte;
    if (length != 0)
        judge(r, length, ram_len);
    else if (r[KIND] == 0)
        refuse(r, 32);
    else
        r[PHASE] = TAKE_EXTENDED_LOW;
}

static void take_ack(uint32_t *r, uint8_t byte)
{
    r[PHASE] = byte == ACK ? RUNNING : SEND_STX;
    r[REASON] = byte == ACK ? r[REASON] : 34;
    r[HELD] = byte == ACK ? RAM_BASE : 0;
    r[LENGTH] = 0;
}

static void take(uint32_t *r, uint8_t byte, size_t ram_len)
{
    switch (r[PHASE]) {
    case TAKE_SOH:
        if (byte == SOH)
            r[PHASE] = TAKE_LOW;
        else
            refuse(r, 31);
        break;
    case TAKE_LOW:
    case TAKE_EXTENDED_LOW:
        r[HELD] = byte;
        r[PHASE]++;
        break;
    case TAKE_HIGH: take_high(r, byte, ram_len); break;
    case TAKE_EXTENDED_HIGH: judge(r, 65536 + (size_t)r[HELD] + 256 * (size_t)byte, ram_len); break;
    default: take_ack(r, byte); break;
    }
}

static size_t take_code(uint32_t *r, const uint8_t *input, size_t input_len, uint8_t *ram)
{
    size_t count = r[LENGTH] - r[PLACE];
    if (count > input_len)
        count = input_len;
    plain.copy(ram + r[PLACE], input, count);
    r[PLACE] += (uint32_t)count;
    if (r[PLACE] == r[LENGTH]) {
        r[PHASE] = SEND_XOR;
        r[PLACE] = 0;
    }
    return count;
}

static uint8_t xor_of(const uint8_t *bytes, size_t count)
{
    uint8_t x = 0;
    for (size_t i = 0; i < count; i++)
        x ^= bytes[i];
    return x;
}

static uint8_t send(uint32_t *r, const uint8_t *ram)
{
    switch (r[PHASE]) {
    case SEND_STX: r[PHASE] = TAKE_SOH; return STX;
    case SEND_ACK: r[PHASE] = TAKE_CODE; return ACK;
    case SEND_XOR: r[PHASE] = TAKE_ACK; return xor_of(ram, r[LENGTH]);
    default: r[PHASE] = SEND_STX; return NAK;
    }
}

void plain_rom_fresh(uint32_t kind, uint32_t record[8])
{
    for (int i = 0; i < 8; i++)
        record[i] = 0;
    record[KIND] = kind;
}

static int sends(uint32_t phase)
{
    return phase == SEND_STX || phase == SEND_ACK || phase == SEND_XOR || phase == SEND_NAK;
}

und_report plain_rom_call(uint32_t record[8], const uint8_t *input, size_t input_len, uint8_t *reply, size_t reply_len,
                          uint8_t *ram, size_t ram_len)
{
    size_t taken = 0, sent = 0;
    if (ram_len < 1 || ram_len > 131072)
        return (und_report){2, 0, 0, 0};
    if (!is_sound(record, ram_len))
        return (und_report){4, 0, 0, 0};
    for (;;) {
        uint32_t phase = record[PHASE];
        if (phase == RUNNING)
            return (und_report){0, 3, taken, sent};
        if (sends(phase)) {
            if (sent == reply_len)
                return (und_report){0, 2, taken, sent};
            reply[sent++] = send(record, ram);
            continue;
        }
        if (taken == input_len)
            return (und_report){0, 1, taken, sent};
        if (phase == TAKE_CODE)
            taken += take_code(record, input + taken, input_len - taken, ram);
        else
            take(record, input[taken++], ram_len);
    }
}
