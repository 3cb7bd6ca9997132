/* Where in a visit a session is, and which byte of reply is due there, in words. */
#ifndef DUE_H
#define DUE_H

#include "text.h"
#include "walk.h"

/* The last command: "command 2, Read: 64 bytes of RAM at 0x07FC0000". */
void add_command(text *t, const walk *w);

/* "in command 2, ..", "after command 2, ..", "before the first command" */
void add_where(text *t, const walk *w);

/* What the next byte of reply means: "the header is accepted". */
void add_reply(text *t, const walk *w);

/* What the payload of the last command says, as far as it has come. */
und_command asked_for(const walk *w);

/* Of an answer to Read: where its next byte is in the RAM, from 0 on. Of one to Read QSPI: where in the flash. */
size_t ram_place(const walk *w);
size_t flash_place(const walk *w);

/* Where none is due: "uartboot waits for a command", "code runs at 0x07FC0000". */
void add_rest(text *t, const walk *w);

/* Whether the opcode of the last command has come, and its number. */
bool has_opcode(const walk *w);
uint32_t opcode_of(const walk *w);

#endif
