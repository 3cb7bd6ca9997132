/* Plain C to compare the library with. It is called as the library is: the same arguments, the same answers. */
#ifndef PLAIN_H
#define PLAIN_H

#include "undalisho.h"

#include <stddef.h>
#include <stdint.h>

/* The words of a record. The last one, which the library keeps 0, holds the payload's CRC between its two bytes. */
enum { KIND, PHASE, OPCODE, LENGTH, PLACE, HELD, REASON, CRC };

/* The address of RAM's first byte. */
#define RAM_BASE 0x07FC0000u

/* The most numbers of a version's text. */
enum { TEXT_NUMBERS = 4 };

/* The bytes of the line. */
enum { SOH = 0x01, STX = 0x02, ETX = 0x03, ACK = 0x06, NAK = 0x15 };

/* What copies, sums, ranks trays and replays: memcpy, the bitwise CRCs, plain_rank_tray and plain_replay, unless the
   bench puts others in their place. */
typedef struct {
    void *(*copy)(void *to, const void *from, size_t count);
    uint16_t (*crc16)(const uint8_t *bytes, size_t count);
    uint32_t (*crc32)(const uint8_t *bytes, size_t count);
    uint32_t (*rank_tray)(const uint8_t *fields, size_t fields_len, uint32_t *ranks, size_t ranks_len);
    und_replayed (*replay)(const uint8_t *recording, size_t recording_len, uint8_t *ram, size_t ram_len, uint8_t *flash,
                           size_t flash_len, uint8_t *work, size_t work_len);
} plain_means;

extern plain_means plain;

void plain_fill_tables(void);
uint16_t plain_crc16_bitwise(const uint8_t *bytes, size_t count);
uint16_t plain_crc16_table(const uint8_t *bytes, size_t count);
uint32_t plain_crc32_bitwise(const uint8_t *bytes, size_t count);
uint32_t plain_crc32_table(const uint8_t *bytes, size_t count);
uint32_t plain_crc32_zlib(const uint8_t *bytes, size_t count);

void *plain_copy_by_loop(void *to, const void *from, size_t count);

und_ranked plain_rank(const uint8_t *field, size_t field_len);
uint32_t plain_rank_tray(const uint8_t *fields, size_t fields_len, uint32_t *ranks, size_t ranks_len);
/* The same with the library's und_rank for each field, as programs do that have no und_rank_tray. */
uint32_t plain_rank_tray_by_calls(const uint8_t *fields, size_t fields_len, uint32_t *ranks, size_t ranks_len);
und_selected plain_select(const uint8_t *flash, size_t flash_len, uint32_t header_offset);
void plain_rom_fresh(uint32_t kind, uint32_t record[8]);
und_report plain_rom_call(uint32_t record[8], const uint8_t *input, size_t input_len, uint8_t *reply, size_t reply_len,
                          uint8_t *ram, size_t ram_len);
void plain_uartboot_fresh(uint32_t record[8]);
und_report plain_uartboot_call(uint32_t record[8], const uint8_t *input, size_t input_len, uint8_t *reply,
                               size_t reply_len, uint8_t *ram, size_t ram_len, uint8_t *flash, size_t flash_len,
                               uint8_t *work, size_t work_len);
void plain_host_fresh(uint32_t record[8]);
und_report plain_host_call(uint32_t record[8], uint32_t opcode, const uint8_t *payload, size_t payload_len,
                           const uint8_t *input, size_t input_len, uint8_t *output, size_t output_len, uint8_t *answer,
                           size_t answer_len);
und_replayed plain_replay(const uint8_t *recording, size_t recording_len, uint8_t *ram, size_t ram_len, uint8_t *flash,
                          size_t flash_len, uint8_t *work, size_t work_len);
/* The same bytes, joined before, in one call of the library's session with room for all replies. */
und_replayed replay_by_session(const uint8_t *recording, size_t recording_len, uint8_t *ram, size_t ram_len,
                               uint8_t *flash, size_t flash_len, uint8_t *work, size_t work_len);

#endif
