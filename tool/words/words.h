/* The library's numbers in words. */
#ifndef WORDS_H
#define WORDS_H

#include "text.h"

#include <stdbool.h>
#include <stdint.h>

typedef struct {
    uint32_t number;
    const char *what; /* what it says */
    const char *next; /* what to do about it */
} meaning;

/* A refusal's number, or a session's reason; never NULL. */
const meaning *meaning_of(uint32_t number);

/* A refusal as JSON has it, with the exit code of the command: ,"words":..,"next":..,"exit":.. */
void text_add_meaning(text *t, const meaning *m, int code);

/* The first rule that an image breaks; rule 0 is "valid". It has no next step of its own. */
const meaning *rule_meaning(uint32_t rule);

/* A command's name. */
const char *opcode_name(uint32_t opcode);

/* The numbers that a payload may have. */
typedef enum { COUNT = 'n', ADDRESS = 'a', OFFSET = 'o', VERIFY = 'v' } payload_number;

/* Whether a command's payload has this number. */
bool payload_has(uint32_t opcode, payload_number number);

/* "1 byte", "2 bytes" */
void add_count(text *t, size_t count);

/* "offset 41 (0x29)" */
void add_offset(text *t, size_t offset);

/* What the payload of a command asks for. */
void add_payload(text *t, uint32_t opcode, const uint8_t *payload, size_t length);

#endif
