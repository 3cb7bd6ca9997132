/* A session of the library, one turn at a time. */
#ifndef SESSION_H
#define SESSION_H

#include "files.h"
#include "undalisho.h"

#include <stdbool.h>

/* A session and its memories; a receiver has RAM alone. */
typedef struct {
    uint32_t record[UND_RECORD_WORDS];
    content ram, flash, work;
} session;

/* The parts of the flow, in its order, by the record's phase. */
typedef enum {
    GREETING,
    HEADER,
    HEADER_ANSWER,
    CODE,
    PAYLOAD,
    CHECKSUM,
    GO,
    ANSWER_LENGTH,
    ANSWER_GO,
    ANSWER,
    ANSWER_CRC,
    ANSWER_END,
    REFUSAL,
    RUNNING
} part;

/* What a phase is: its part of the flow, whether the chip sends there, and whether bytes go in bulk. */
typedef struct {
    part part;
    bool sends, bulk, idle; /* idle: waits for the first byte of a header, and may drop others */
} phase;

phase phase_of(const uint32_t record[UND_RECORD_WORDS]);

void session_fresh(session *s, uint32_t kind);

enum { MOST_GREETING = 8 };

/* What a fresh session of this kind sends first. Gives how many bytes these are. */
size_t session_greeting(uint32_t kind, uint8_t bytes[MOST_GREETING]);

/* One call, in which bytes of one part of the flow are taken or sent. `input` is what the host has sent; `reply` has
   room for at least one byte. */
und_report session_turn(session *s, const uint8_t *input, size_t input_len, uint8_t *reply, size_t reply_len);

#endif
