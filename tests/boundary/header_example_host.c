/* Runs the second example of undalisho.h (header-examples.inc): all commands, one after the other, to a session of the
   library, then to a device that refuses, one that is silent and one that runs code. */
#include "hold.h"
#include "undalisho.h"

#include <string.h>

enum { RAM = 1024, DATA = 200 };

/* The device, and what it is sent before it is called. */
static uint32_t device[UND_RECORD_WORDS];
static uint8_t ram[RAM], flash[2 * UND_FLASH_SECTOR], work[512], to_device[1024];
static size_t to_device_len;

/* The line, a few bytes at a time. */
static size_t read_line(uint8_t *line, size_t room)
{
    und_report r = und_uartboot_call(device, to_device, to_device_len, line, room < 7 ? room : 7, ram, sizeof ram,
                                     flash, sizeof flash, work, sizeof work);

    to_device_len -= r.taken;
    memmove(to_device, to_device + r.taken, to_device_len);
    return r.sent;
}

static void write_line(const uint8_t *bytes, size_t count)
{
    memcpy(to_device + to_device_len, bytes, count);
    to_device_len += count;
}

#include "header-examples.inc"

static struct unread came;
static uint8_t answer[DATA];

/* What the example gives for a command. */
static int command(uint32_t opcode, const void *payload, size_t count)
{
    return send_command(&came, opcode, (const uint8_t *)payload, count, answer, sizeof answer);
}

int main(void)
{
    uint8_t write[4 + DATA] = {0x10, 0x00, 0xFC, 0x07}; /* 16 bytes after UND_RAM_FIRST */

    for (int i = 0; i < DATA; i++)
        write[4 + i] = (uint8_t)(i * 7);
    memset(flash, 0x55, sizeof flash);
    und_uartboot_fresh(device);
    HOLD(command(UND_OP_WRITE, write, sizeof write) == 0 && memcmp(ram + 16, write + 4, DATA) == 0);
    HOLD(command(UND_OP_READ, "\x10\x00\xFC\x07\xC8\x00", 6) == 0 && memcmp(answer, write + 4, DATA) == 0);
    HOLD(command(UND_OP_ERASE, "\x00\x00\x00\x00\x01\x00\x00\x00", 8) == 0 && flash[4095] == 0xFF &&
         flash[4096] == 0x55);
    HOLD(command(UND_OP_COPY, "\x10\x00\xFC\x07\xC8\x00\x05\x00\x00\x00", 10) == 0 && flash[5 + 9] == 9 * 7);
    HOLD(command(UND_OP_READ_QSPI, "\x06\x00\x00\x00\x02\x00", 6) == 0 && answer[0] == 7 && answer[1] == 14);
    HOLD(command(UND_OP_VERSION, NULL, 0) == 0 && memcmp(answer, "0.0.0.3", 7) == 0);
    HOLD(command(UND_OP_DIRECT_WRITE, "\x01\x00\x00\x00\x00\x0F", 6) == 0 && flash[0] == 0x0F);
    HOLD(command(UND_OP_DIRECT_WRITE, "\x01\x00\x00\x00\x00\xF0", 6) == UND_DEVICE_REFUSED && flash[0] == 0);
    HOLD(command(UND_OP_CHIP_ERASE, NULL, 0) == 0 && flash[8191] == 0xFF);
    HOLD(command(UND_OP_READ, "\x00\x00\xFC\x07\xC9\x00", 6) == UND_SHORT_ANSWER);
    HOLD(command(UND_OP_RUN, "\x10\x00\xFC\x07", 5) == UND_BAD_COMMAND);
    HOLD(command(UND_OP_RUN, "\x10\x00\xFC\x07", 4) == 0 && read_line(answer, 1) == 0 &&
         device[UND_RECORD_PHASE] == 19);
    HOLD(command(UND_OP_VERSION, NULL, 0) == -1);
    return wrong;
}
