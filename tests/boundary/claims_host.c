/* What undalisho.h says of the host's end of uartboot, asked of the library: lengths, standings, what is taken, sent
   and stored. phases_host.c asks which commands and words each phase has. */
#include "hold.h"
#include "undalisho.h"

#include <string.h>

enum { ROOM = 32, LONGEST = 65535 };

/* A command that is being sent, with what the last call has reported and sent. */
static uint32_t record[16]; /* more words than a record has */
static uint32_t opcode;
static uint8_t payload[LONGEST + 1], answer[LONGEST + 1], output[ROOM];
static size_t payload_len, answer_len;
static und_report last;

static void call(const uint8_t *bytes, size_t count, size_t room)
{
    last = und_host_call(record, opcode, payload, payload_len, bytes, count, output, room, answer, answer_len);
}

/* Begins a command whose payload is all 00, with a byte at its fifth place: the count of a Read. */
static void begin(uint32_t command, size_t length, uint8_t count)
{
    opcode = command;
    payload_len = length;
    answer_len = sizeof answer;
    memset(payload, 0, sizeof payload);
    payload[4] = count;
    memset(answer, 0xEE, sizeof answer);
    und_host_fresh(record);
}

#define BYTES(...) (const uint8_t[]){__VA_ARGS__}, sizeof((const uint8_t[]){__VA_ARGS__})
#define SHOW(...) call(BYTES(__VA_ARGS__), ROOM)

/* Whether the last call was accepted and has reported and sent this. */
static int reported(uint32_t standing, size_t taken, const uint8_t *sent, size_t count)
{
    return last.number == 0 && last.standing == standing && last.taken == taken && last.sent == count &&
           memcmp(output, sent, count) == 0;
}

static int sent_nothing(uint32_t standing, size_t taken)
{
    return reported(standing, taken, output, 0);
}

/* Whether the command is over, with this reason or done. */
static int is_over(uint32_t reason)
{
    return last.standing == UND_OVER && record[UND_RECORD_PHASE] == 17 && record[UND_RECORD_REASON] == reason;
}

static uint32_t number_of(uint32_t command, size_t length, size_t room)
{
    begin(command, length, 9);
    answer_len = room;
    call(NULL, 0, 0);
    return last.number;
}

static void lengths(void)
{
    HOLD(number_of(UND_OP_WRITE, 5, 0) == 0 && number_of(UND_OP_WRITE, 4, 0) == 71);
    HOLD(number_of(UND_OP_WRITE, LONGEST, 0) == 0 && number_of(UND_OP_WRITE, LONGEST + 1, 0) == 71);
    HOLD(number_of(UND_OP_READ, 6, 9) == 0 && number_of(UND_OP_READ, 6, 8) == 72);
    HOLD(number_of(UND_OP_READ_QSPI, 6, 9) == 0 && number_of(UND_OP_READ_QSPI, 6, 8) == 72);
    HOLD(number_of(UND_OP_VERSION, 0, 7) == 0 && number_of(UND_OP_VERSION, 0, 6) == 72);
    HOLD(number_of(0x07, 6, 9) == 71 && number_of(0x100 + UND_OP_VERSION, 0, 7) == 71);
}

/* 71, then 72, then 4; what is refused changes nothing. */
static void order_of_refusals(void)
{
    begin(UND_OP_READ, 6, 9);
    record[UND_RECORD_KIND] = UND_KIND_UARTBOOT;
    answer_len = 8;
    payload_len = 7;
    SHOW(0x02);
    HOLD(last.number == 71);
    payload_len = 6;
    SHOW(0x02);
    HOLD(last.number == 72);
    answer_len = 9;
    SHOW(0x02);
    HOLD(last.number == 4 && last.standing == 0 && last.taken == 0 && last.sent == 0);
    HOLD(record[UND_RECORD_PHASE] == 0 && record[UND_RECORD_PLACE] == 0 && answer[0] == 0xEE);
    record[UND_RECORD_KIND] = UND_KIND_HOST;
    SHOW(0x02);
    HOLD(sent_nothing(UND_WANTS_BYTE, 1) && record[UND_RECORD_PLACE] == 1);
}

static void fresh(void)
{
    memset(record, 0xFF, sizeof record);
    und_host_fresh(record);
    HOLD(record[UND_RECORD_KIND] == UND_KIND_HOST && record[UND_RECORD_WORDS] == 0xFFFFFFFF);
    for (int i = UND_RECORD_KIND + 1; i < UND_RECORD_WORDS; i++)
        HOLD(record[i] == 0);
}

/* A call does not look at words that the phase does not use, and leaves 0 there. */
static void unused_words(void)
{
    begin(UND_OP_CHIP_ERASE, 0, 0);
    record[UND_RECORD_OPCODE] = record[UND_RECORD_LENGTH] = record[UND_RECORD_HELD] = record[UND_RECORD_WORDS - 1] = 5;
    record[UND_RECORD_REASON] = 77;
    SHOW(0x02);
    HOLD(sent_nothing(UND_WANTS_BYTE, 1) && record[UND_RECORD_PLACE] == 1 && record[UND_RECORD_REASON] == 77);
    HOLD(record[UND_RECORD_OPCODE] == 0 && record[UND_RECORD_LENGTH] == 0);
    HOLD(record[UND_RECORD_HELD] == 0 && record[UND_RECORD_WORDS - 1] == 0);
}

/* With an answer: the greeting's middle bytes may be any, the buffer's bytes past the answer stay, and the next
   greeting is left. */
static void answered(void)
{
    begin(UND_OP_READ, 6, 3);
    call(BYTES(0x02, 0xAA, 0x15, 0x03), 0);
    HOLD(sent_nothing(UND_WANTS_ROOM, 4) && record[UND_RECORD_PHASE] == 1);
    SHOW(0x06);
    HOLD(reported(UND_WANTS_BYTE, 1, BYTES(0x01, 0x02, 0x06, 0x00, 0x00, 0x00, 0x00, 0x00, 0x03, 0x00)));
    SHOW(0x06, 0x43, 0x5B, 0x03, 0x00);
    HOLD(reported(UND_WANTS_BYTE, 5, BYTES(0x06, 0x06)));
    SHOW('1', '2');
    HOLD(sent_nothing(UND_WANTS_BYTE, 2) && record[UND_RECORD_PHASE] == 12 && record[UND_RECORD_PLACE] == 2);
    SHOW('3', 0x06, 0x02, 0x01);
    HOLD(reported(UND_OVER, 2, BYTES(0xCE, 0x5B)) && is_over(0) && memcmp(answer, "123\xEE", 4) == 0);
    SHOW(0x02);
    HOLD(sent_nothing(UND_OVER, 0));
}

/* Without an answer the next greeting's 02 is left. Run is done at its own 06. */
static void left(void)
{
    begin(UND_OP_CHIP_ERASE, 0, 0);
    SHOW(0x02, 0x01, 0x00, 0x03, 0x06);
    HOLD(last.taken == 5 && last.standing == UND_WANTS_BYTE && record[UND_RECORD_PHASE] == 16);
    SHOW(0x02, 0x01, 0x00, 0x03);
    HOLD(sent_nothing(UND_OVER, 0) && is_over(0));
    begin(UND_OP_RUN, 4, 0);
    SHOW(0x02, 0x01, 0x00, 0x03, 0x06, 0x06, 0xC0, 0x84, 0x02);
    HOLD(reported(UND_OVER, 8, BYTES(0x01, 0x05, 0x04, 0x00, 0x00, 0x00, 0x00, 0x00, 0x06)) && is_over(0));
}

/* Whether a byte after these ends a command with this reason, taken. */
static int ends_with(uint32_t reason, const uint8_t *bytes, size_t count)
{
    call(bytes, count, ROOM);
    return is_over(reason) && last.taken == count;
}

#define ENDS(reason, ...) ends_with(reason, BYTES(__VA_ARGS__))

static void ended(void)
{
    begin(UND_OP_CHIP_ERASE, 0, 0);
    HOLD(ENDS(73, 0x15));
    begin(UND_OP_CHIP_ERASE, 0, 0);
    HOLD(ENDS(75, 0x03));
    begin(UND_OP_CHIP_ERASE, 0, 0);
    HOLD(ENDS(73, 0x02, 0x01, 0x00, 0x15));
    begin(UND_OP_CHIP_ERASE, 0, 0);
    HOLD(ENDS(75, 0x02, 0x01, 0x00, 0x02));
    begin(UND_OP_CHIP_ERASE, 0, 0);
    HOLD(ENDS(73, 0x02, 0x01, 0x00, 0x03, 0x15));
    begin(UND_OP_CHIP_ERASE, 0, 0);
    HOLD(ENDS(73, 0x02, 0x01, 0x00, 0x03, 0x06, 0x15));
    begin(UND_OP_CHIP_ERASE, 0, 0);
    HOLD(ENDS(75, 0x02, 0x01, 0x00, 0x03, 0x06, 0x06));
    begin(UND_OP_RUN, 4, 0);
    HOLD(ENDS(74, 0x02, 0x01, 0x00, 0x03, 0x06, 0x06, 0xC0, 0x85) && output[last.sent - 1] == 0x15);
    begin(UND_OP_VERSION, 0, 0);
    HOLD(ENDS(73, 0x02, 0x01, 0x00, 0x03, 0x06, 7, 0, '0', '.', '0', '.', '0', '.', '3', 0x15));
    HOLD(memcmp(answer, "0.0.0.3\xEE", 8) == 0);
}

/* A Read of so many bytes, up to the answer's length. */
static void begin_read(uint8_t count, uint8_t crc_low, uint8_t crc_high)
{
    begin(UND_OP_READ, 6, count);
    SHOW(0x02, 0x01, 0x00, 0x03, 0x06, 0x06, crc_low, crc_high);
}

static void answer_lengths(void)
{
    begin_read(3, 0x43, 0x5B);
    HOLD(ENDS(73, 0x15));
    begin_read(3, 0x43, 0x5B);
    HOLD(ENDS(75, 0x03, 0x15));
    begin_read(3, 0x43, 0x5B);
    HOLD(ENDS(75, 0x02, 0x00));
    begin_read(0x15, 0x96, 0xF2);
    SHOW(0x15, 0x00);
    HOLD(reported(UND_WANTS_BYTE, 2, BYTES(0x06)) && record[UND_RECORD_PHASE] == 12);
    begin_read(0x15, 0x96, 0xF2);
    HOLD(ENDS(75, 0x15, 0x01));
    begin_read(0, 0x10, 0x0E);
    HOLD(ENDS(75, 0x00, 0x00));
}

int main(void)
{
    lengths();
    order_of_refusals();
    fresh();
    unused_words();
    answered();
    left();
    ended();
    answer_lengths();
    return wrong;
}
