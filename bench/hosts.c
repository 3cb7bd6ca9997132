/* The host's end of a whole command, with all of the device's bytes in one call: greeting, header, payload, CRC, 06,
   answer, the answer's CRC. */
#include "plain.h"
#include "plain_command.h"
#include "subjects.h"

#include <string.h>

enum { MOST = 65535, AROUND = 64 /* more than is sent around a payload or an answer */ };

/* What the library has, and what plain C has. */
typedef struct {
    uint32_t record[8];
    uint8_t *output, *answer;
    und_report report;
} side;

static side ours, theirs;
static uint8_t *payload, *device;
static size_t payload_len, device_len;

/* What is copied begins elsewhere on its page than where it goes to, as in sessions.c. */
static void make_room(side *d)
{
    d->output = room_at(1024, MOST + AROUND);
    d->answer = room_at(3072, MOST);
}

static void put(const uint8_t *bytes, size_t count)
{
    memcpy(device + device_len, bytes, count);
    device_len += count;
}

static void put16(size_t number)
{
    put((const uint8_t[]){(uint8_t)number, (uint8_t)(number >> 8)}, 2);
}

static void put_answer(size_t size)
{
    put16(size);
    some_bytes(device + device_len, size);
    device_len += size;
    put((const uint8_t[]){ACK}, 1);
}

/* A Write whose payload has `size` bytes, or a Read whose answer has. */
static void make_command(const subject *s, size_t size)
{
    payload_len = s->opcode == WRITE ? size : 6;
    some_bytes(payload, payload_len);
    if (s->opcode == READ)
        memcpy(payload + 4, (const uint8_t[]){(uint8_t)size, (uint8_t)(size >> 8)}, 2);
    device_len = 0;
    put((const uint8_t[]){STX, 0x01, 0x00, ETX, ACK, ACK}, 6);
    put16(plain_crc16_table(payload, payload_len));
    if (s->opcode == READ)
        put_answer(size);
    else
        put((const uint8_t[]){STX}, 1);
}

void host_prepare(const subject *s, size_t size)
{
    if (payload == NULL) {
        payload = room_at(2048, MOST);
        device = room_at(0, MOST + AROUND);
        make_room(&ours);
        make_room(&theirs);
    }
    memset(ours.output, 0, MOST + AROUND);
    memset(theirs.output, 0, MOST + AROUND);
    memset(ours.answer, 0, MOST);
    memset(theirs.answer, 0, MOST);
    make_command(s, size);
}

void host_library(const subject *s)
{
    und_host_fresh(ours.record);
    ours.report = und_host_call(ours.record, s->opcode, payload, payload_len, device, device_len, ours.output,
                                MOST + AROUND, ours.answer, MOST);
}

void host_plain(const subject *s)
{
    plain_host_fresh(theirs.record);
    theirs.report = plain_host_call(theirs.record, s->opcode, payload, payload_len, device, device_len, theirs.output,
                                    MOST + AROUND, theirs.answer, MOST);
}

/* The same, and as meant: the command is done, and there was no reason against it. */
int host_same(void)
{
    return ours.report.number == 0 && ours.report.standing == 3 && ours.record[REASON] == 0 &&
           theirs.report.number == 0 && theirs.report.standing == 3 && theirs.report.taken == ours.report.taken &&
           theirs.report.sent == ours.report.sent && memcmp(theirs.record, ours.record, sizeof ours.record) == 0 &&
           memcmp(theirs.output, ours.output, MOST + AROUND) == 0 && memcmp(theirs.answer, ours.answer, MOST) == 0;
}
