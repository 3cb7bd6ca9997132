/* uartboot's commands in plain C: their lengths, their checks, what they do. */
#ifndef PLAIN_COMMAND_H
#define PLAIN_COMMAND_H

#include <stddef.h>
#include <stdint.h>

enum { WRITE = 0x01, READ, COPY, ERASE, RUN, READ_QSPI = 0x08, VERSION = 0x0B, CHIP_ERASE = 0x0C, DIRECT_WRITE = 0x12 };

typedef struct {
    uint8_t *ram;
    size_t ram_len;
    uint8_t *flash;
    size_t flash_len;
    uint8_t *work;
    size_t work_len;
} plain_memories;

int plain_has_length(uint32_t opcode, size_t length);
int plain_is_known(uint32_t opcode);
int plain_has_answer(uint32_t opcode);
/* The reason against the command in the work buffer, whose payload has `length` bytes; 0 where there is none. */
uint32_t plain_check(uint32_t opcode, size_t length, const plain_memories *m);
/* Executes it after the same checks. *answer is set to the answer's length. */
uint32_t plain_execute(uint32_t opcode, size_t length, const plain_memories *m, size_t *answer);
uint32_t plain_number32(const uint8_t *b);
size_t plain_number16(const uint8_t *b);

#endif
