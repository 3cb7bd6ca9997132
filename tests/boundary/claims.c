/* What undalisho.h says of lengths, kinds, standings, words, places, addresses, files, rules, line bytes and NULL,
   asked of the library. phases.c asks which words each phase uses. */
#include "hold.h"
#include "undalisho.h"

#include <string.h>

static uint8_t ram[UND_RAM_MAX + 1], flash[UND_FLASH_MAX + UND_FLASH_SECTOR], work[UND_WORK_MAX + 1], reply[64];
static uint32_t record[16]; /* more words than a record has */

static uint32_t number_with(size_t ram_len, size_t flash_len, size_t work_len)
{
    und_uartboot_fresh(record);
    return und_uartboot_call(record, NULL, 0, NULL, 0, ram, ram_len, flash, flash_len, work, work_len).number;
}

static void lengths(void)
{
    HOLD(number_with(1, UND_FLASH_SECTOR, UND_WORK_MIN) == 0);
    HOLD(number_with(UND_RAM_MAX, UND_FLASH_MAX, UND_WORK_MAX) == 0);
    HOLD(number_with(0, UND_FLASH_MAX, UND_WORK_MAX) == 2);
    HOLD(number_with(UND_RAM_MAX + 1, UND_FLASH_MAX, UND_WORK_MAX) == 2);
    HOLD(number_with(UND_RAM_MAX, 0, UND_WORK_MAX) == 3);
    HOLD(number_with(UND_RAM_MAX, UND_FLASH_SECTOR / 2, UND_WORK_MAX) == 3);
    HOLD(number_with(UND_RAM_MAX, UND_FLASH_MAX + UND_FLASH_SECTOR, UND_WORK_MAX) == 3);
    HOLD(number_with(UND_RAM_MAX, UND_FLASH_MAX, UND_WORK_MIN - 1) == 1);
    HOLD(number_with(UND_RAM_MAX, UND_FLASH_MAX, UND_WORK_MAX + 1) == 1);
}

static und_report to_receiver(uint32_t kind, const uint8_t *bytes, size_t count, size_t room)
{
    und_rom_fresh(kind, record);
    return und_rom_call(record, bytes, count, reply, room, ram, UND_RAM_MAX);
}

static void kinds_and_standings(void)
{
    static const uint8_t frame[] = {0x01, 0x01, 0x00, 0x11, 0x06}, no_length[] = {0x01, 0x00, 0x00};

    HOLD(to_receiver(UND_KIND_P, frame, 4, sizeof reply).standing == UND_WANTS_BYTE);
    HOLD(to_receiver(UND_KIND_P, frame, 5, 2).standing == UND_WANTS_ROOM);
    HOLD(to_receiver(UND_KIND_P, frame, 5, sizeof reply).standing == UND_RUNS);
    to_receiver(UND_KIND_P, no_length, 3, sizeof reply);
    HOLD(record[UND_RECORD_KIND] == UND_KIND_P && record[UND_RECORD_REASON] == 32);
    to_receiver(UND_KIND_E, no_length, 3, sizeof reply);
    HOLD(record[UND_RECORD_KIND] == UND_KIND_E && record[UND_RECORD_PHASE] == 4);
    HOLD(to_receiver(UND_KIND_UARTBOOT, frame, 5, sizeof reply).number == 4);
}

static und_report to_uartboot(const uint8_t *bytes, size_t count)
{
    return und_uartboot_call(record, bytes, count, reply, sizeof reply, ram, 1, flash, UND_FLASH_SECTOR, work,
                             UND_WORK_MIN);
}

static void words(void)
{
    static const uint8_t write[] = {0x01, 0x01, 0x09, 0x00, 0xAA, 0xBB}, unknown[] = {0x01, 0x7F, 0x00, 0x00};

    memset(record, 0xFF, sizeof record);
    und_uartboot_fresh(record);
    HOLD(record[UND_RECORD_WORDS - 1] == 0 && record[UND_RECORD_WORDS] == 0xFFFFFFFF);
    HOLD(record[UND_RECORD_KIND] == UND_KIND_UARTBOOT);
    to_uartboot(write, 3);
    HOLD(record[UND_RECORD_PHASE] == 4 && record[UND_RECORD_OPCODE] == 1 && record[UND_RECORD_HELD] == 9);
    to_uartboot(write + 3, 3);
    HOLD(record[UND_RECORD_PHASE] == 6 && record[UND_RECORD_LENGTH] == 9 && record[UND_RECORD_PLACE] == 2);
    und_uartboot_fresh(record);
    to_uartboot(unknown, 4);
    HOLD(record[UND_RECORD_REASON] == 11);
}

/* The number of a call with nothing to take, where a word of the record holds another value. The record is then as
   before. */
static uint32_t number_once(int word, uint32_t value)
{
    uint32_t kept[UND_RECORD_WORDS], number;
    und_report r;

    memcpy(kept, record, sizeof kept);
    record[word] = value;
    r = record[UND_RECORD_KIND] == UND_KIND_UARTBOOT ? to_uartboot(NULL, 0)
                                                     : und_rom_call(record, NULL, 0, NULL, 0, ram, UND_RAM_MAX);
    number = r.number;
    memcpy(record, kept, sizeof kept);
    return number;
}

static void places(void)
{
    und_rom_fresh(UND_KIND_P, record);
    HOLD(number_once(UND_RECORD_PLACE, 0) == 0 && number_once(UND_RECORD_PLACE, 1) == 4);
    und_uartboot_fresh(record);
    HOLD(number_once(UND_RECORD_PLACE, 3) == 0 && number_once(UND_RECORD_PLACE, 4) == 4);
    to_uartboot(NULL, 0);
    HOLD(record[UND_RECORD_PHASE] == 1 && number_once(UND_RECORD_PLACE, 0) == 0 &&
         number_once(UND_RECORD_PLACE, 1) == 4);
}

static void first_address(void)
{
    static const uint8_t frame[] = {0x01, 0x01, 0x00, 0x11, 0x06};
    enum { FIRST = UND_RAM_FIRST };
    const uint8_t run[] = {1, 5, 4, 0, FIRST & 0xFF, FIRST >> 8 & 0xFF, FIRST >> 16 & 0xFF, FIRST >> 24, 6};

    HOLD(to_receiver(UND_KIND_E, frame, sizeof frame, sizeof reply).standing == UND_RUNS);
    HOLD(record[UND_RECORD_HELD] == UND_RAM_FIRST && number_once(UND_RECORD_HELD, UND_RAM_FIRST - 1) == 4);
    und_uartboot_fresh(record);
    HOLD(to_uartboot(run, sizeof run).standing == UND_RUNS && record[UND_RECORD_HELD] == UND_RAM_FIRST);
    HOLD(record[UND_RECORD_OPCODE] == UND_OP_RUN && number_once(UND_RECORD_OPCODE, UND_OP_WRITE) == 4);
}

/* An image with one byte of code, 00, whose CRC-32 is D202EF8D. */
static void make_image(uint8_t image[65], char version)
{
    static const uint8_t start[] = {0x70, 0x51, 0xAA, 0x00, 0x01, 0x00, 0x00, 0x00, 0x8D, 0xEF, 0x02, 0xD2};

    memset(image, 0, 65);
    memcpy(image, start, sizeof start);
    image[12] = (uint8_t)version;
}

static void files(void)
{
    uint8_t first[65], second[65];

    make_image(first, '1');
    make_image(second, '2');
    HOLD(und_offer(first, 65, second, 65).file == UND_FILE_CANDIDATE);
    HOLD(und_offer(second, 65, first, 65).file == UND_FILE_INSTALLED);
}

static uint32_t rule_with(size_t byte, uint8_t value, size_t length)
{
    uint8_t image[65];

    make_image(image, '1');
    image[byte] = value;
    return und_read_image(image, length, 0).rule;
}

static void rules(void)
{
    HOLD(rule_with(1, 0x51, 65) == 0);
    HOLD(rule_with(1, 0x51, 63) == UND_RULE_HEADER);
    HOLD(rule_with(1, 0x52, 65) == UND_RULE_MARK);
    HOLD(rule_with(2, 0x55, 65) == UND_RULE_FLAG);
    HOLD(rule_with(4, 0x00, 65) == UND_RULE_SIZE);
    HOLD(rule_with(1, 0x51, 64) == UND_RULE_REACH);
    HOLD(rule_with(32, 0x01, 65) == UND_RULE_ENCRYPTED);
    HOLD(rule_with(64, 0x01, 65) == UND_RULE_CRC);
}

static void line_bytes(void)
{
    const uint8_t start[] = {UND_LINE_START, 0x01, 0x00}, other[] = {UND_LINE_START + 1};

    to_receiver(UND_KIND_P, start, 3, sizeof reply);
    HOLD(reply[0] == UND_LINE_GREETING && reply[1] == UND_LINE_ACK && record[UND_RECORD_PHASE] == 7);
    to_receiver(UND_KIND_P, other, 1, sizeof reply);
    HOLD(reply[0] == UND_LINE_GREETING && reply[1] == UND_LINE_NAK && record[UND_RECORD_REASON] == 31);
}

static void null_where_empty(void)
{
    und_rom_fresh(UND_KIND_P, record);
    HOLD(und_rank(NULL, 0).number == 61);
    HOLD(und_order(NULL, 0, NULL, 0).number == 61);
    HOLD(und_rank_tray(NULL, 0, NULL, 0) == 0);
    HOLD(und_rank_tray(ram, UND_VERSION_FIELD, NULL, 0) == 65);
    HOLD(und_select(NULL, 0, 0).number == 3);
    HOLD(und_offer(NULL, 0, NULL, 0).number == 62);
    HOLD(und_read_image(NULL, 0, 0).rule == UND_RULE_HEADER);
    HOLD(und_read_product(NULL, 0, 0).number == 3);
    HOLD(und_read_command(0x0B, NULL, 0).number == 0);
    HOLD(und_make_image_header(NULL, 0, 0, NULL, 0, 0).number == 41);
    HOLD(und_make_image_header(ram, 1, 0, NULL, 0, 0).number == 61);
    HOLD(und_rom_call(record, NULL, 0, NULL, 0, ram, 1).standing == UND_WANTS_ROOM);
    HOLD(und_rom_call(record, NULL, 0, NULL, 0, NULL, 0).number == 2);
    HOLD(und_uartboot_call(record, NULL, 0, NULL, 0, NULL, 0, NULL, 0, NULL, 0).number == 1);
    HOLD(und_host_call(record, 0x0C, NULL, 0, NULL, 0, NULL, 0, NULL, 0).number == 4);
    HOLD(und_host_call(record, 0x0B, NULL, 0, NULL, 0, NULL, 0, NULL, 0).number == 72);
    und_host_fresh(record);
    HOLD(und_host_call(record, 0x0C, NULL, 0, NULL, 0, NULL, 0, NULL, 0).standing == UND_WANTS_BYTE);
    HOLD(und_replay(NULL, 0, NULL, 0, NULL, 0, NULL, 0).number == 1);
    HOLD(und_replay(NULL, 0, ram, 1, flash, UND_FLASH_SECTOR, work, UND_WORK_MIN).number == 81);
    HOLD(und_frame_p(NULL, 0, NULL, 0).number == 41);
    HOLD(und_frame_e(ram, 1, NULL, 0).number == 43);
}

int main(void)
{
    lengths();
    kinds_and_standings();
    words();
    places();
    first_address();
    files();
    rules();
    line_bytes();
    null_where_empty();
    return wrong;
}
