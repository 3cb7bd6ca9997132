/* Streams that mostly play along with a session, and often don't. */
#ifndef STREAMS_H
#define STREAMS_H

#include "lead.h"

/* Follows a session from its record and memories (which it writes), and appends what a host might send to it. */
void play_rom(trial *t, stream *s, uint32_t record[WORDS], const model_memories *memories, uint32_t loads);
void play_uartboot(trial *t, stream *s, uint32_t record[WORDS], const model_memories *memories, uint32_t commands);
/* Follows a host whose command and answer buffer are accepted, and appends what a device might send to it. */
void play_host(trial *t, stream *s, uint32_t record[WORDS], const model_request *request,
               const model_memories *memories);

/* Damage that no session asked for: an end in the middle, a wrong byte, more bytes at the end. */
void spoil(trial *t, stream *s);

/* A command with its payload; bytes that were not planned are 0. */
typedef struct {
    uint8_t opcode;
    uint32_t length;
    uint8_t payload[MOST_WORK + 64];
} planned;

/* Whether data follows the numbers of its payload. */
bool takes_data(uint8_t opcode);
/* The numbers of a planned opcode's payload, each where the command has it. */
void put_command(planned *p, uint64_t address, uint64_t offset, uint64_t count, uint64_t verify);
/* The payload of a planned opcode, mostly one that the memories admit. */
void plan_payload(trial *t, planned *p, const model_memories *memories);
/* A count of 0, or one above the work buffer's length, from a memory's first byte on, where the planned command has a
   count. */
void plan_bad_count(trial *t, planned *p, const model_memories *memories);
/* Mostly a command that they admit. */
void plan_command(trial *t, planned *p, const model_memories *memories);

/* Appends a command's header, and its payload where the header is accepted. */
void play_planned(lead *g, const planned *p);

#endif
