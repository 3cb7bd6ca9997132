/* Commands with the longest payloads, answers, ranges and memories, and what goes one byte past them. */
#include "figures.h"

#include <string.h>

typedef struct {
    const char *name;
    size_t ram_length, flash_length, work_length;
    uint8_t opcode;
    const char *numbers; /* of the payload; data of F0 follows them */
    size_t numbers_length, data_length;
    uint32_t phase, reason; /* after the byte that acknowledges the payload's CRC */
} command_figure;

#define RAM_FULL 131072, SECTOR, 65535
#define FLASH_64K 131072, 65536, 65535
#define FLASH_FULL 16, MOST_FLASH, 64

/* clang-format off */
static const command_figure commands[] = {
    {"Write to the end of RAM", RAM_FULL, OP_WRITE, BYTES("\x05\x00\xFD\x07"), 65531, 1, 0},
    {"Write past RAM", RAM_FULL, OP_WRITE, BYTES("\x06\x00\xFD\x07"), 65531, 1, 21},
    {"Read to the end of RAM", RAM_FULL, OP_READ, BYTES("\x01\x00\xFD\x07" "\xFF\xFF"), 0, 13, 0},
    {"Read past RAM", RAM_FULL, OP_READ, BYTES("\x02\x00\xFD\x07" "\xFF\xFF"), 0, 1, 21},
    {"Read above W", 131072, SECTOR, 65534, OP_READ, BYTES("\x00\x00\xFC\x07" "\xFF\xFF"), 0, 1, 17},
    {"Run of the last byte", RAM_FULL, OP_RUN, BYTES("\xFF\xFF\xFD\x07"), 0, 19, 0},
    {"Run after RAM", RAM_FULL, OP_RUN, BYTES("\x00\x00\xFE\x07"), 0, 1, 16},
    {"Copy to the end of flash", FLASH_64K, OP_COPY, BYTES("\x01\x00\xFD\x07" "\xFF\xFF" "\x01\x00\x00\x00"), 0, 1, 0},
    {"Copy past flash", FLASH_64K, OP_COPY, BYTES("\x01\x00\xFD\x07" "\xFF\xFF" "\x02\x00\x00\x00"), 0, 1, 21},
    {"Read QSPI to the end of flash", FLASH_64K, OP_READ_QSPI, BYTES("\x01\x00\x00\x00" "\xFF\xFF"), 0, 13, 0},
    {"Direct write to the end of flash", FLASH_64K, OP_DIRECT_WRITE, BYTES("\x01" "\x06\x00\x00\x00"), 65530, 1, 0},
    {"Direct write past flash", FLASH_64K, OP_DIRECT_WRITE, BYTES("\x01" "\x07\x00\x00\x00"), 65530, 1, 21},
    {"Direct write to the last byte", FLASH_FULL, OP_DIRECT_WRITE, BYTES("\x01" "\xFF\xFF\x3F\x00"), 1, 1, 0},
    {"Direct write past the longest flash", FLASH_FULL, OP_DIRECT_WRITE, BYTES("\x01" "\xFF\xFF\x3F\x00"), 2, 1, 21},
    {"Erase of the last sector", FLASH_FULL, OP_ERASE, BYTES("\x00\xF0\x3F\x00" "\x00\x10\x00\x00"), 0, 1, 0},
    {"Erase past the longest flash", FLASH_FULL, OP_ERASE, BYTES("\x00\xF0\x3F\x00" "\x01\x10\x00\x00"), 0, 1, 21},
    {"Erase of the longest flash", FLASH_FULL, OP_ERASE, BYTES("\x00\x00\x00\x00" "\x00\x00\x40\x00"), 0, 1, 0},
    {"Chip erase of the longest flash", FLASH_FULL, OP_CHIP_ERASE, BYTES(""), 0, 1, 0},
};
/* clang-format on */

/* Header, payload, and the host's 06 where there is a payload. Gives the length. */
static size_t host_bytes(uint8_t *host, const command_figure *c)
{
    size_t length = c->numbers_length + c->data_length;
    memcpy(host, (const uint8_t[]){0x01, c->opcode, (uint8_t)length, (uint8_t)(length >> 8)}, 4);
    memcpy(host + 4, c->numbers, c->numbers_length);
    memset(host + 4 + c->numbers_length, 0xF0, c->data_length);
    host[4 + length] = ACK;
    return 4 + length + (length ? 1 : 0);
}

void command_figures(trial *t)
{
    static uint8_t host[4 + MOST_WORK + 1];
    const uint8_t *reply;
    desk d;
    for (size_t i = 0; i < sizeof commands / sizeof *commands; i++) {
        const command_figure *c = &commands[i];
        setting s = setting_of(KIND_UARTBOOT, c->ram_length, c->flash_length, c->work_length);
        desk_set(t, &d, &s);
        desk_call(t, &d, host, host_bytes(host, c), 64, &reply);
        if (d.record[WORD_PHASE] != c->phase || d.record[WORD_REASON] != c->reason)
            differ(t, "figure: %s", c->name);
    }
    /* the last one has erased it all */
    if (d.library.flash[0] != 0xFF || memcmp(d.library.flash, d.library.flash + 1, MOST_FLASH - 1) != 0)
        differ(t, "figure: a flash that is erased as a whole");
}
