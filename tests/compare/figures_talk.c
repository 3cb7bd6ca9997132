/* Whole commands of a host over the line, and every byte in place of each one that the device sends. */
#include "figures.h"

#include <string.h>

/* What is awaited at each of the device's bytes: ! this byte; . any; C c the payload's CRC; L l the answer's length;
   a the answer; ? this byte, which stays untaken. Under it, as hexadecimal digits, how many bytes the host has sent
   before. */
typedef struct {
    const char *name;
    uint32_t opcode;
    const char *payload;
    size_t payload_length;
    const char *device;
    size_t device_length;
    const char *host;
    size_t host_length;
    const char *awaited, *sent;
} talk;

typedef struct {
    uint32_t reason;
    size_t taken, sent;
} ending;

enum { LONGEST = 64, ANSWER_BUFFER = 32 };

/* clang-format off */
#define WRITE_2 "\x00\x00\xFC\x07" "\x0A\x0B"
#define RUN_15 "\x0F\x00\xFC\x07"
#define READ_21 "\x00\x00\xFC\x07" "\x15\x00"
#define LETTERS "abcdefghijklmnopqrstu"

static const talk talks[] = {
    {"Version", OP_VERSION, BYTES(""),
     BYTES(GREETING "\x06" "\x07\x00" "0.0.0.3" "\x06"),
     BYTES("\x01\x0B\x00\x00" "\x06" "\x6E\x62"),
     "!..!!Llaaaaaaa!",
     "000044455555557"},
    {"Write of two bytes", OP_WRITE, BYTES(WRITE_2),
     BYTES(GREETING "\x06" "\x06" "\x5F\x05" "\x02"),
     BYTES("\x01\x01\x06\x00" WRITE_2 "\x06"),
     "!..!!!Cc?",
     "00004AAAB"},
    {"Run", OP_RUN, BYTES(RUN_15),
     BYTES(GREETING "\x06" "\x06" "\x65\x76"),
     BYTES("\x01\x05\x04\x00" RUN_15 "\x06"),
     "!..!!!Cc",
     "00004888"},
    {"Chip erase", OP_CHIP_ERASE, BYTES(""),
     BYTES(GREETING "\x06" "\x02"),
     BYTES("\x01\x0C\x00\x00"),
     "!..!!?",
     "000044"},
    /* its length's low byte is 15 */
    {"Read of 21 bytes", OP_READ, BYTES(READ_21),
     BYTES(GREETING "\x06" "\x06" "\x79\xA7" "\x15\x00" LETTERS "\x06"),
     BYTES("\x01\x02\x06\x00" READ_21 "\x06" "\x06" "\x60\xE3"),
     "!..!!!CcLl" "aaaaaaaaaaaaaaaaaaaaa" "!",
     "00004AAABB" "CCCCCCCCCCCCCCCCCCCCC" "E"},
};
/* clang-format on */

setting host_setting(uint32_t opcode, const char *payload, size_t length, size_t answer_length)
{
    static uint8_t lent[MOST_WORK + 1];
    setting s = {.kind = KIND_HOST, .request = {opcode, lent, length}};
    s.contents = contents_of(FIRST_CONTENTS, 0, 0, answer_length);
    memset(s.contents.work, 0xEE, answer_length);
    memset(lent, 0, length);
    if (payload)
        memcpy(lent, payload, length);
    model_fresh(KIND_HOST, s.record);
    return s;
}

/* The answer bytes that were taken are in the buffer, and all others there are as before. */
static bool holds_answer(const talk *k, const uint8_t *device, const desk *d, size_t taken)
{
    size_t first = strcspn(k->awaited, "a"), last = first + strspn(k->awaited + first, "a");
    size_t came = taken < first ? 0 : (taken < last ? taken : last) - first;
    bool same = memcmp(d->library.work, device + first, came) == 0;
    for (size_t i = came; i < ANSWER_BUFFER; i++)
        same = same && d->library.work[i] == 0xEE;
    return same;
}

/* The device's bytes in one call. After reason 74 the last of the host's bytes is 15. */
static bool ends_like(trial *t, const talk *k, const uint8_t *device, ending want)
{
    uint8_t host[LONGEST];
    const uint8_t *reply;
    setting s = host_setting(k->opcode, k->payload, k->payload_length, ANSWER_BUFFER);
    desk d;
    memcpy(host, k->host, want.sent);
    if (want.reason == 74)
        host[want.sent - 1] = NAK;
    desk_set(t, &d, &s);
    model_report got = desk_call(t, &d, device, k->device_length, LONGEST, &reply);
    return got.standing == OVER && got.taken == want.taken && got.sent == want.sent &&
           memcmp(reply, host, want.sent) == 0 && d.record[WORD_PHASE] == 17 && d.record[WORD_REASON] == want.reason &&
           holds_answer(k, device, &d, want.taken);
}

static size_t sent_before(const talk *k, size_t place)
{
    char digit = k->sent[place];
    return (size_t)(digit <= '9' ? digit - '0' : digit - 'A' + 10);
}

/* How it ends with a wrong byte at a place; any byte will do in the greeting's middle and in the answer. */
static ending with_wrong(const talk *k, size_t place, uint8_t byte)
{
    size_t sent = sent_before(k, place);
    switch (k->awaited[place]) {
    case 'C': return (ending){74, place + 2, sent + 1};
    case 'c': return (ending){74, place + 1, sent + 1};
    case 'L': return byte == NAK ? (ending){73, place + 1, sent} : (ending){75, place + 2, sent};
    case 'l': return (ending){75, place + 1, sent};
    default: return (ending){byte == NAK ? 73 : 75, place + 1, sent};
    }
}

static void every_byte_at(trial *t, const talk *k, size_t place)
{
    uint8_t device[LONGEST], right = (uint8_t)k->device[place];
    memcpy(device, k->device, k->device_length);
    for (uint32_t byte = 0; byte < 256; byte++) {
        device[place] = (uint8_t)byte;
        if (byte != right && !ends_like(t, k, device, with_wrong(k, place, (uint8_t)byte)))
            differ(t, "figure: %s with %02X at place %zu", k->name, byte, place);
    }
}

static void talk_figure(trial *t, const talk *k)
{
    uint8_t device[LONGEST];
    bool looks = k->awaited[k->device_length - 1] == '?';
    ending done = {0, k->device_length - (looks ? 1 : 0), k->host_length};
    memcpy(device, k->device, k->device_length);
    if (!ends_like(t, k, device, done))
        differ(t, "figure: %s over the line", k->name);
    device[1] = device[2] = NAK;
    if (!ends_like(t, k, device, done))
        differ(t, "figure: %s after 15 in the middle of a greeting", k->name);
    for (size_t place = 0; place < k->device_length; place++)
        if (strchr(".a", k->awaited[place]) == NULL)
            every_byte_at(t, k, place);
}

void talk_figures(trial *t)
{
    for (size_t i = 0; i < sizeof talks / sizeof *talks; i++)
        talk_figure(t, &talks[i]);
}
