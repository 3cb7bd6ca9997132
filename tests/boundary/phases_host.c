/* Asks the library which commands have each phase of a host, and which words of a record the phase uses. It says so in
   the lines that phases.py makes of the header's table. */
#include "undalisho.h"

#include <stdio.h>
#include <string.h>

enum { COUNT = 9, LONGEST = 12, HELD = 300, PHASES = 64 };

typedef struct {
    uint32_t opcode, payload, awaited; /* lengths */
    int answers;
} command;

static const command commands[] = {
    {UND_OP_WRITE, LONGEST, 0, 0},   {UND_OP_READ, 6, COUNT, 1},      {UND_OP_READ, 6, 0, 1},
    {UND_OP_COPY, 10, 0, 0},         {UND_OP_ERASE, 8, 0, 0},         {UND_OP_RUN, 4, 0, 0},
    {UND_OP_READ_QSPI, 6, COUNT, 1}, {UND_OP_READ_QSPI, 6, 0, 1},     {UND_OP_VERSION, 0, 7, 1},
    {UND_OP_CHIP_ERASE, 0, 0, 0},    {UND_OP_DIRECT_WRITE, 11, 0, 0},
};

enum { COMMANDS = sizeof commands / sizeof *commands };

static uint32_t record[UND_RECORD_WORDS];

/* A call with no input and no room: whether it accepts such a record. The words that the phase uses are then left in
   it. */
static int accepts(const command *c, uint32_t phase, uint32_t place)
{
    const uint32_t words[UND_RECORD_WORDS] = {UND_KIND_HOST, phase, 55, 66, place, HELD, 77, 88};
    const uint8_t payload[LONGEST] = {0, 0, 0, 0, (uint8_t)c->awaited};
    uint8_t answer[COUNT];

    memcpy(record, words, sizeof words);
    return und_host_call(record, c->opcode, payload, c->payload, NULL, 0, NULL, 0, answer, sizeof answer).number == 0;
}

/* How many places, from 0 on, are accepted; 0 if one of them is not kept. */
static uint32_t count_places(const command *c, uint32_t phase)
{
    uint32_t place = 0;

    for (; place <= LONGEST && accepts(c, phase, place); place++)
        if (record[UND_RECORD_PLACE] != place)
            return 0;
    return place;
}

/* The header's names for sets of commands, and whether a command is in each of them. */
enum { ALL, WITH_PAYLOAD, WITH_ANSWER, AWAITING, GREETED, SETS };

static const char *const sets[] = {
    "all",           "with a payload", "with an answer", "awaiting 1 byte or more", "without an answer, not Run",
    "other commands"};

static int is_in(int set, const command *c)
{
    switch (set) {
    case ALL: return 1;
    case WITH_PAYLOAD: return c->payload != 0;
    case WITH_ANSWER: return c->answers;
    case AWAITING: return c->awaited != 0;
    default: return !c->answers && c->opcode != UND_OP_RUN;
    }
}

/* Whether the set has the commands with this phase, and no others. */
static int is_set_of(int set, uint32_t phase)
{
    for (int i = 0; i < COMMANDS; i++)
        if (accepts(&commands[i], phase, 0) != is_in(set, &commands[i]))
            return 0;
    return 1;
}

static const char *set_of(uint32_t phase)
{
    int set = 0;

    while (set < SETS && !is_set_of(set, phase))
        set++;
    return sets[set];
}

/* The header's names for how many places a phase has. */
enum { ONE, FOUR, PAYLOAD_LENGTH, AWAITED_LENGTH, BOUNDS };

static const char *const bounds[] = {"", "; place (below 4)", "; place (below its length)",
                                     "; place (below the awaited length)", "; place (any)"};

static int is_bound_of(int bound, uint32_t phase)
{
    for (int i = 0; i < COMMANDS; i++) {
        const uint32_t counts[] = {1, 4, commands[i].payload, commands[i].awaited};
        if (accepts(&commands[i], phase, 0) && count_places(&commands[i], phase) != counts[bound])
            return 0;
    }
    return 1;
}

static const char *bound_of(uint32_t phase)
{
    int bound = 0;

    while (bound < BOUNDS && !is_bound_of(bound, phase))
        bound++;
    return bounds[bound];
}

/* Whether a command has the phase. The record is then as the last one leaves it. */
static int leave_words(uint32_t phase)
{
    uint32_t left[UND_RECORD_WORDS] = {0};

    for (int i = 0; i < COMMANDS; i++)
        if (accepts(&commands[i], phase, 0))
            memcpy(left, record, sizeof left);
    memcpy(record, left, sizeof left);
    return record[UND_RECORD_KIND] == UND_KIND_HOST;
}

int main(void)
{
    for (uint32_t phase = 0; phase < PHASES; phase++) {
        const char *set = set_of(phase), *bound = bound_of(phase);
        if (!leave_words(phase))
            continue;
        printf("host %u: %s%s%s%s%s\n", (unsigned)phase, set, record[UND_RECORD_OPCODE] ? "; opcode" : "",
               record[UND_RECORD_LENGTH] ? "; length" : "", bound, record[UND_RECORD_HELD] ? "; held" : "");
    }
    return 0;
}
