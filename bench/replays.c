/* A recorded visit as a player writes it down: Writes and Direct writes of a sector, each read back, with an entry for
   each piece of the host and for each that the session sends. A visit stores the same bytes in the same places every
   time, so each run finds the memories as the one before, and no run has to put them back. */
#include "plain.h"
#include "plain_command.h"
#include "subjects.h"

#include <string.h>

enum {
    MOST = 1048576,
    RAM = 131072,
    FLASH = 1048576,
    WORK = 65535,
    DATA = 4096,
    PIECE = 1024,
    AROUND = 96 /* more than a command's entries have beside its data */
};

/* What the library has, and what plain C has. */
typedef struct {
    uint8_t *ram, *flash, *work;
    und_replayed answer;
} side;

/* Bytes of one kind, without what is between them. */
typedef struct {
    uint8_t *bytes;
    size_t length;
} joined;

static side ours, theirs;
static joined file, host, device;
static uint8_t *replies;
static uint32_t record[UND_RECORD_WORDS];
static size_t asked; /* how long the recording is to be */

/* They begin at different places of their pages, as in sessions.c. */
static void make_room(side *d)
{
    d->ram = room_at(2048, RAM);
    d->flash = room_at(2048, FLASH);
    d->work = room_at(3072, WORK);
}

static void append(joined *to, const uint8_t *bytes, size_t count)
{
    memcpy(to->bytes + to->length, bytes, count);
    to->length += count;
}

static void write_entry(uint8_t kind, const uint8_t *bytes, size_t count)
{
    const uint8_t head[UND_ENTRY_HEAD] = {kind, (uint8_t)count, (uint8_t)(count >> 8)};
    append(&file, head, sizeof head);
    append(&file, bytes, count);
    append(kind == UND_ENTRY_HOST ? &host : &device, bytes, count);
}

/* What the session sends for a piece of the host. */
static void answer_piece(const uint8_t *bytes, size_t count)
{
    uint8_t reply[PIECE];
    und_report r;
    do {
        r = und_uartboot_call(record, bytes, count, reply, sizeof reply, ours.ram, RAM, ours.flash, FLASH, ours.work,
                              WORK);
        if (r.sent)
            write_entry(UND_ENTRY_DEVICE, reply, r.sent);
        bytes += r.taken;
        count -= r.taken;
    } while (r.standing == UND_WANTS_ROOM);
}

static void say(const uint8_t *bytes, size_t count)
{
    while (count > 0) {
        size_t piece = count < PIECE ? count : PIECE;
        write_entry(UND_ENTRY_HOST, bytes, piece);
        answer_piece(bytes, piece);
        bytes += piece;
        count -= piece;
    }
}

static void say_command(uint32_t opcode, const uint8_t *payload, size_t length)
{
    static const uint8_t ack = ACK;
    const uint8_t header[] = {SOH, (uint8_t)opcode, (uint8_t)length, (uint8_t)(length >> 8)};
    say(header, sizeof header);
    say(payload, length);
    say(&ack, 1);
    if (!plain_has_answer(opcode))
        return;
    uint16_t crc;
    say(&ack, 1);
    crc = plain_crc16_table(ours.work, record[LENGTH]);
    say((const uint8_t[]){(uint8_t)crc, (uint8_t)(crc >> 8)}, 2);
}

static void put32(uint8_t *to, uint32_t number)
{
    for (int i = 0; i < 4; i++)
        to[i] = (uint8_t)(number >> (8 * i));
}

/* A command of the visit: in turns a Write, a Read of the same, a Direct write, a Read QSPI of the same. */
static void speak(uint32_t turn, size_t count)
{
    static const uint8_t opcodes[] = {WRITE, READ, DIRECT_WRITE, READ_QSPI};
    uint8_t payload[5 + DATA] = {1}, opcode = opcodes[turn % 4];
    uint32_t place = turn / 4 * DATA;
    if (opcode == DIRECT_WRITE) {
        put32(payload + 1, place);
        some_bytes(payload + 5, count);
        say_command(opcode, payload, 5 + count);
        return;
    }
    put32(payload, opcode == READ_QSPI ? place : RAM_BASE + place % RAM);
    some_bytes(payload + 4, count);
    if (opcode != WRITE)
        put32(payload + 4, (uint32_t)count);
    say_command(opcode, payload, opcode == WRITE ? 4 + count : 6);
}

static void make_memories(void)
{
    if (file.bytes == NULL) {
        file.bytes = room_at(0, MOST);
        host.bytes = room_at(512, MOST);
        device.bytes = room_at(1024, MOST);
        replies = room_at(1536, MOST);
        make_room(&ours);
        make_room(&theirs);
    }
    memset(ours.ram, 0, RAM);
    memset(ours.flash, UND_FLASH_BLANK, FLASH);
    memset(ours.work, 0, WORK);
}

/* As many whole commands as the size has room for; the last one has what is left of it. */
void replay_prepare(const subject *s, size_t size)
{
    (void)s;
    asked = size;
    make_memories();
    file.length = host.length = device.length = 0;
    append(&file, (const uint8_t[]){'B', 'L', 'G', UND_RECORDING_VERSION, 0}, UND_RECORDING_HEAD);
    und_uartboot_fresh(record);
    answer_piece(NULL, 0);
    for (uint32_t turn = 0; file.length + AROUND < size; turn++) {
        size_t left = size - file.length - AROUND;
        speak(turn, left < DATA ? left : DATA);
    }
    memcpy(theirs.ram, ours.ram, RAM);
    memcpy(theirs.flash, ours.flash, FLASH);
    memcpy(theirs.work, ours.work, WORK);
}

void replay_library(const subject *s)
{
    (void)s;
    ours.answer = und_replay(file.bytes, file.length, ours.ram, RAM, ours.flash, FLASH, ours.work, WORK);
}

void replay_plain(const subject *s)
{
    (void)s;
    theirs.answer = plain.replay(file.bytes, file.length, theirs.ram, RAM, theirs.flash, FLASH, theirs.work, WORK);
}

und_replayed replay_by_session(const uint8_t *recording, size_t recording_len, uint8_t *ram, size_t ram_len,
                               uint8_t *flash, size_t flash_len, uint8_t *work, size_t work_len)
{
    (void)recording;
    (void)recording_len;
    und_uartboot_fresh(record);
    und_report r = und_uartboot_call(record, host.bytes, host.length, replies, MOST, ram, ram_len, flash, flash_len,
                                     work, work_len);
    int equal = r.sent == device.length && memcmp(replies, device.bytes, r.sent) == 0;
    return (und_replayed){r.number, equal ? 1 : 0, 0};
}

/* The same, and as meant: the recording is as long as whole commands allow, and equal. */
int replay_same(void)
{
    return file.length <= asked && file.length + AROUND >= asked && ours.answer.number == 0 && ours.answer.equal == 1 &&
           theirs.answer.number == 0 && theirs.answer.equal == 1 && record[REASON] == 0 &&
           memcmp(theirs.ram, ours.ram, RAM) == 0 && memcmp(theirs.flash, ours.flash, FLASH) == 0 &&
           memcmp(theirs.work, ours.work, WORK) == 0;
}
