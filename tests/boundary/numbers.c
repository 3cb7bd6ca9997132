/* What undalisho.h calls numbers, reasons and opcodes, asked of the library. */
#include "hold.h"
#include "undalisho.h"

#include <string.h>

/* The smallest memories; flash is all 00 at first. */
static uint8_t ram[1], flash[UND_FLASH_SECTOR], work[UND_WORK_MIN], reply[64], code[65536];
static uint32_t record[UND_RECORD_WORDS];

static uint32_t call_number(size_t ram_len, size_t flash_len, size_t work_len)
{
    und_uartboot_fresh(record);
    return und_uartboot_call(record, NULL, 0, NULL, 0, ram, ram_len, flash, flash_len, work, work_len).number;
}

static uint32_t replay_number(const char *recording, size_t recording_len)
{
    return und_replay((const uint8_t *)recording, recording_len, ram, 1, flash, sizeof flash, work, sizeof work).number;
}

static void refusals(void)
{
    uint8_t field[UND_VERSION_FIELD] = {'1'};
    und_image_header image = und_make_image_header(code, 1, 0, field, sizeof field, 0);
    und_product_header product = und_make_product_header(0, 0);
    uint8_t file[sizeof image.bytes + 1] = {0};
    uint32_t ranks[UND_TRAY_ENTRY];

    HOLD(und_rank(field, UND_VERSION_FIELD).number == 0);
    HOLD(call_number(1, sizeof flash, 0) == UND_BAD_WORK);
    HOLD(call_number(0, sizeof flash, sizeof work) == UND_BAD_RAM);
    HOLD(call_number(1, 0, sizeof work) == UND_BAD_FLASH);
    und_rom_fresh(UND_KIND_UARTBOOT, record);
    HOLD(und_rom_call(record, NULL, 0, NULL, 0, ram, 1).number == UND_BAD_RECORD);
    HOLD(und_frame_p(code, 0, reply, sizeof reply).number == UND_EMPTY_CODE);
    HOLD(und_frame_p(code, sizeof code, reply, sizeof reply).number == UND_LONG_CODE);
    HOLD(und_frame_p(code, 1, reply, 1).number == UND_SHORT_OUTPUT);
    HOLD(und_select(flash, sizeof flash, sizeof flash).number == UND_NO_PRODUCT_HEADER);
    HOLD(und_select(flash, sizeof flash, 0).number == UND_WRONG_PRODUCT_MARK);
    memcpy(flash, product.bytes, sizeof product.bytes);
    HOLD(und_select(flash, sizeof flash, 0).number == UND_NO_VALID_IMAGE);
    memset(flash, 0, sizeof flash);
    memcpy(file, image.bytes, sizeof image.bytes);
    HOLD(und_offer(flash, sizeof flash, file, sizeof file).number == UND_INSTALLED_NOT_VALID);
    HOLD(und_offer(file, sizeof file, flash, sizeof flash).number == UND_CANDIDATE_NOT_VALID);
    HOLD(und_rank(flash, UND_VERSION_FIELD).number == UND_MALFORMED_VERSION);
    HOLD(und_rank_tray(field, 1, ranks, UND_TRAY_ENTRY) == UND_BAD_TRAY);
    HOLD(und_rank_tray(field, sizeof field, ranks, UND_TRAY_ENTRY - 1) == UND_SHORT_RANKS);
    und_host_fresh(record);
    HOLD(und_host_call(record, 0x07, NULL, 0, NULL, 0, NULL, 0, NULL, 0).number == UND_BAD_COMMAND);
    HOLD(und_host_call(record, 0x0B, NULL, 0, NULL, 0, NULL, 0, reply, 6).number == UND_SHORT_ANSWER);
    HOLD(replay_number("BLX", 3) == UND_WRONG_RECORDING_MARK);
    HOLD(replay_number("BLG\2\0", 5) == UND_WRONG_RECORDING_VERSION);
    HOLD(replay_number("BLG\1\0\3", 6) == UND_UNKNOWN_ENTRY);
    HOLD(replay_number("BLG\1\0\1", 6) == UND_SHORT_ENTRY);
}

/* The last reason of a fresh session that is fed these bytes. */
static uint32_t reason_of(uint32_t kind, const uint8_t *bytes, size_t count)
{
    if (kind == UND_KIND_UARTBOOT) {
        und_uartboot_fresh(record);
        und_uartboot_call(record, bytes, count, reply, sizeof reply, ram, 1, flash, sizeof flash, work, sizeof work);
    } else {
        und_rom_fresh(kind, record);
        und_rom_call(record, bytes, count, reply, sizeof reply, ram, 1);
    }
    return record[UND_RECORD_REASON];
}

/* The reason that ends a Run of a fresh host that is shown these bytes of a device; its payload is all 00. */
static uint32_t ending_of(const uint8_t *bytes, size_t count)
{
    und_host_fresh(record);
    HOLD(und_host_call(record, 0x05, code, 4, bytes, count, reply, sizeof reply, NULL, 0).standing == UND_OVER);
    return record[UND_RECORD_REASON];
}

#define BYTES(...) (const uint8_t[]){__VA_ARGS__}, sizeof((const uint8_t[]){__VA_ARGS__})
#define UARTBOOT(...) reason_of(UND_KIND_UARTBOOT, BYTES(__VA_ARGS__))
#define RECEIVER(...) reason_of(UND_KIND_P, BYTES(__VA_ARGS__))
#define HOST(...) ending_of(BYTES(__VA_ARGS__))

static void reasons(void)
{
    HOLD(UARTBOOT(0x01, 0x7F, 0, 0) == UND_UNKNOWN_OPCODE);
    HOLD(UARTBOOT(0x01, 0x04, 7, 0) == UND_BAD_LENGTH);
    HOLD(UARTBOOT(0x01, 0x01, 65, 0) == UND_LONG_PAYLOAD);
    HOLD(UARTBOOT(0x01, 0x12, 6, 0, 2, 0, 0, 0, 0, 0) == UND_BAD_VERIFY);
    HOLD(UARTBOOT(0x01, 0x08, 6, 0, 0, 0, 0, 0, 0, 0) == UND_EMPTY_RANGE);
    HOLD(UARTBOOT(0x01, 0x08, 6, 0, 0, 16, 0, 0, 1, 0) == UND_OUTSIDE_MEMORY);
    HOLD(UARTBOOT(0x01, 0x08, 6, 0, 0xFF, 15, 0, 0, 2, 0) == UND_PAST_END);
    HOLD(UARTBOOT(0x01, 0x08, 6, 0, 0, 0, 0, 0, 65, 0) == UND_LONG_ANSWER);
    HOLD(UARTBOOT(0x01, 0x12, 6, 0, 1, 0, 0, 0, 0, 1, 0x06) == UND_VERIFY_DIFFERS);
    HOLD(UARTBOOT(0x01, 0x0B, 0, 0, 0x06, 0, 0) == UND_CRC_DIFFERS);
    HOLD(UARTBOOT(0x01, 0x0B, 0, 0, 0x15) == UND_NOT_ACKED);
    HOLD(RECEIVER(0x00) == UND_ROM_NO_START);
    HOLD(RECEIVER(0x01, 0, 0) == UND_ROM_EMPTY_CODE);
    HOLD(RECEIVER(0x01, 2, 0) == UND_ROM_LONG_CODE);
    HOLD(RECEIVER(0x01, 1, 0, 7, 0x15) == UND_ROM_NOT_ACKED);
    HOLD(HOST(2, 1, 0, 3, 0x15) == UND_DEVICE_REFUSED);
    HOLD(HOST(2, 1, 0, 3, 6, 6, 0xC0, 0x85) == UND_DEVICE_CRC);
    HOLD(HOST(2, 1, 0, 3, 6, 6, 0xC0, 0x84) == 0);
    HOLD(HOST(2, 1, 0, 3, 7) == UND_OUT_OF_FLOW);
}

/* Whether a payload 01 02 03 .. says these numbers. */
static int says(uint32_t opcode, size_t length, uint32_t address, uint32_t offset, uint32_t count, uint32_t verify)
{
    static const uint8_t payload[] = {1, 2, 3, 4, 5, 6, 7, 8, 9, 10};
    und_command c = und_read_command(opcode, payload, length);
    return c.number == 0 && c.address == address && c.offset == offset && c.count == count && c.verify == verify;
}

static void opcodes(void)
{
    HOLD(says(UND_OP_WRITE, 5, 0x04030201, 0, 1, 0));
    HOLD(says(UND_OP_READ, 6, 0x04030201, 0, 0x0605, 0));
    HOLD(says(UND_OP_COPY, 10, 0x04030201, 0x0A090807, 0x0605, 0));
    HOLD(says(UND_OP_ERASE, 8, 0, 0x04030201, 0x08070605, 0));
    HOLD(says(UND_OP_RUN, 4, 0x04030201, 0, 0, 0));
    HOLD(says(UND_OP_READ_QSPI, 6, 0, 0x04030201, 0x0605, 0));
    HOLD(says(UND_OP_DIRECT_WRITE, 6, 0, 0x05040302, 1, 1));
    HOLD(UARTBOOT(0x01, UND_OP_VERSION, 0, 0, 0x06) == 0 && memcmp(reply + 7, "0.0.0.3", 7) == 0);
    HOLD(UARTBOOT(0x01, UND_OP_CHIP_ERASE, 0, 0) == 0 && flash[0] == UND_FLASH_BLANK);
}

int main(void)
{
    refusals();
    reasons();
    opcodes();
    return wrong;
}
