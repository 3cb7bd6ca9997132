#include "words.h"

#include "undalisho.h"

#include <stddef.h>
#include <string.h>

static const meaning numbers[] = {
    {UND_BAD_WORK, "the work buffer has a length that it may not have", "give --work a number from 64 to 65535"},
    {UND_BAD_RAM, "the RAM has a length that it may not have", "give --ram a number from 1 to 131072"},
    {UND_BAD_FLASH, "the flash has a length that it may not have",
     "use a file of whole sectors: a multiple of 4096 bytes, at least 4096, at most 4194304"},
    {UND_BAD_RECORD, "the session's state is damaged", "start the session again"},
    {UND_UNKNOWN_OPCODE, "unknown opcode", "look up the opcode; uartboot as it is played here does not have it"},
    {UND_BAD_LENGTH, "payload length that the opcode does not have",
     "check the length in the header against the command"},
    {UND_LONG_PAYLOAD, "payload longer than the work buffer", "send smaller pieces, or play with a larger --work"},
    {UND_BAD_VERIFY, "verify byte neither 0 nor 1", "send 0 (do not compare) or 1 (compare)"},
    {UND_EMPTY_RANGE, "count or size is 0", "ask for at least one byte"},
    {UND_OUTSIDE_MEMORY, "a range starts outside its memory", "check its address or offset: it may be mistyped"},
    {UND_PAST_END, "a range starts in its memory and ends outside",
     "send or ask for less: the file or the count may be too long, or the memory is shorter than meant"},
    {UND_LONG_ANSWER, "answer longer than the work buffer", "ask for fewer bytes, or play with a larger --work"},
    {UND_VERIFY_DIFFERS, "flash differs from the data",
     "erase the sectors first: a store can only clear bits; what was stored stays"},
    {UND_CRC_DIFFERS, "the host's CRC of the answer differs", "ask again; if it stays so, look at the cable"},
    {UND_NOT_ACKED, "not acknowledged by the host",
     "send the command again; it was not carried out if its CRC was not acknowledged"},
    {UND_ROM_NO_START, "a header that does not begin with 01", "start again at the greeting; check kind and baud rate"},
    {UND_ROM_EMPTY_CODE, "code length 0", "load a code that is not empty"},
    {UND_ROM_LONG_CODE, "code longer than the RAM", "load a smaller code, or play with a larger --ram"},
    {UND_ROM_NOT_ACKED, "checksum not acknowledged by the host; the code stays in RAM and does not run", "load again"},
    {UND_EMPTY_CODE, "the code is empty", "name a code file that has bytes in it"},
    {UND_LONG_CODE, "the code is too long for this kind of chip",
     "use a smaller code; kind p takes up to 65535 bytes, kind e (DA1458x) up to 131071"},
    {UND_SHORT_OUTPUT, "the output is shorter than the frame", "report this: the program has lent too little room"},
    {UND_NO_PRODUCT_HEADER, "the product header does not lie wholly in the flash",
     "give its place with --header OFFSET"},
    {UND_WRONG_PRODUCT_MARK, "there is no product header at this place",
     "give its place with --header OFFSET; if it is right, no product header was ever written there"},
    {UND_NO_VALID_IMAGE, "neither image is valid",
     "write a good image to one of the slots; 'undalisho slot' says what is wrong with each"},
    {UND_MALFORMED_VERSION, "a version's text is malformed",
     "write one to four numbers from 0 to 65535 with dots between them and no leading zero, in at most 16 characters"},
    {UND_INSTALLED_NOT_VALID, "the installed file is not a valid image", "take another copy of the installed image"},
    {UND_CANDIDATE_NOT_VALID, "the candidate is not a valid image", "take another copy of the candidate"},
    {UND_BAD_TRAY, "a tray has at most 1024 versions, in whole fields of 16 bytes",
     "split a longer list; of a file with fields, see that all of it is there"},
    {UND_SHORT_RANKS, "the room for the ranks is too short",
     "report this: the program has lent too little room for them"},
    {UND_BAD_COMMAND, "uartboot has no such command, or none with a payload of this length",
     "check opcode and payload; a payload has at most 65535 bytes"},
    {UND_SHORT_ANSWER, "the room for the answer is too short", "report this: the program has lent too little room"},
    {UND_DEVICE_REFUSED, "the device has refused the command",
     "check its addresses, offsets and counts, and whether the flash was erased before; then send it again"},
    {UND_DEVICE_CRC, "the device's CRC of the payload differs",
     "send the command again; if it stays so, look at cable and baud rate"},
    {UND_OUT_OF_FLOW, "the device has sent what is not due",
     "look at cable and baud rate, and whether uartboot runs; reset the monitor, load uartboot again, then send the "
     "command again"},
    {UND_WRONG_RECORDING_MARK, "a recording begins with BLG, and this does not",
     "name a recorded visit; if this is one, take another copy of it"},
    {UND_WRONG_RECORDING_VERSION, "a recording has version 1 after its mark, and this has not",
     "take another copy; a recording of a later version wants a later version of this program"},
    {UND_UNKNOWN_ENTRY, "an entry of the recording has an unknown kind",
     "take another copy: bytes of this one are missing, added or changed, here or in an entry before"},
    {UND_SHORT_ENTRY, "an entry of the recording is cut short",
     "take another copy: the end of this one is missing, or the length of an entry was changed"},
};

/* The limits that are spelled out above. */
typedef char limits_are_those[UND_WORK_MIN == 64 && UND_WORK_MAX == 65535 && UND_RAM_MAX == 131072 &&
                                      UND_FLASH_SECTOR == 4096 && UND_FLASH_MAX == 4194304 && UND_VERSION_FIELD == 16 &&
                                      UND_TRAY_MAX == 1024 && UND_RECORDING_VERSION == 1
                                  ? 1
                                  : -1];

static const meaning rules[] = {
    {0, "valid", NULL},
    {UND_RULE_HEADER, "its header does not lie wholly there", NULL},
    {UND_RULE_MARK, "there is no image header", NULL},
    {UND_RULE_FLAG, "its flag does not say valid", NULL},
    {UND_RULE_SIZE, "its size is not one that code may have", NULL},
    {UND_RULE_REACH, "its code reaches past the end", NULL},
    {UND_RULE_ENCRYPTED, "it is encrypted", NULL},
    {UND_RULE_CRC, "the CRC-32 of its code is not the header's", NULL},
};

typedef struct {
    uint32_t opcode;
    const char *name;
    const char *payload; /* with @ and a letter for every number that it has: see payload_number */
} command_words;

static const command_words commands[] = {
    {UND_OP_WRITE, "Write", "@n to RAM at @a"},
    {UND_OP_READ, "Read", "@n of RAM at @a"},
    {UND_OP_COPY, "Copy to QSPI", "@n of RAM at @a to flash at @o"},
    {UND_OP_ERASE, "Erase QSPI", "@n of flash at @o, with all of each sector"},
    {UND_OP_RUN, "Run", "code in RAM at @a"},
    {UND_OP_READ_QSPI, "Read QSPI", "@n of flash at @o"},
    {UND_OP_VERSION, "Get version", ""},
    {UND_OP_CHIP_ERASE, "Chip erase QSPI", ""},
    {UND_OP_DIRECT_WRITE, "QSPI direct write", "@n to flash at @o, verify @v"},
};

static const meaning unknown = {0, "unknown to this program", "look it up in undalisho.h"};

static const meaning *find(const meaning *table, size_t count, uint32_t number)
{
    for (size_t i = 0; i < count; i++)
        if (table[i].number == number)
            return &table[i];
    return &unknown;
}

#define FIND(table, number) find(table, sizeof table / sizeof *table, number)

const meaning *meaning_of(uint32_t number)
{
    return FIND(numbers, number);
}

void text_add_meaning(text *t, const meaning *m, int code)
{
    text_add_json_word(t, "words", m->what);
    text_add_json_word(t, "next", m->next);
    text_add(t, ",\"exit\":%d", code);
}

const meaning *rule_meaning(uint32_t rule)
{
    return FIND(rules, rule);
}

static const command_words *find_command(uint32_t opcode)
{
    static const command_words none = {0, "unknown command", "payload"};
    for (size_t i = 0; i < sizeof commands / sizeof *commands; i++)
        if (commands[i].opcode == opcode)
            return &commands[i];
    return &none;
}

const char *opcode_name(uint32_t opcode)
{
    return find_command(opcode)->name;
}

bool payload_has(uint32_t opcode, payload_number number)
{
    const char sign[] = {'@', (char)number, '\0'};
    return strstr(find_command(opcode)->payload, sign) != NULL;
}

void add_count(text *t, size_t count)
{
    text_add(t, count == 1 ? "1 byte" : "%zu bytes", count);
}

void add_offset(text *t, size_t offset)
{
    text_add(t, "offset %zu (0x%zX)", offset, offset);
}

/* A number of a payload, by the letter after '@'. */
static void add_number(text *t, char letter, const und_command *c)
{
    switch (letter) {
    case COUNT: add_count(t, c->count); break;
    case ADDRESS: text_add(t, "0x%08X", c->address); break;
    case OFFSET: text_add(t, "0x%05X", c->offset); break;
    case VERIFY: text_add(t, "%u", c->verify); break;
    }
}

void add_payload(text *t, uint32_t opcode, const uint8_t *payload, size_t length)
{
    und_command c = und_read_command(opcode, payload, length);
    for (const char *sign = find_command(opcode)->payload; *sign; sign++) {
        if (*sign == '@')
            add_number(t, *++sign, &c);
        else
            text_add_bytes(t, sign, 1);
    }
}
