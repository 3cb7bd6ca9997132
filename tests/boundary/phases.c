/* Asks the library which words of a record each phase uses. It says so in the lines that phases.py makes of the
   header's tables. */
#include "undalisho.h"

#include <stdio.h>
#include <string.h>

enum { RAM = 16, LENGTH = 8, HELD = UND_RAM_FIRST + 1, OPCODES = 256, PHASES = 64 };

static uint8_t ram[RAM], flash[UND_FLASH_SECTOR], work[UND_WORK_MIN];
static uint32_t record[UND_RECORD_WORDS];

/* A call with no input and no room: whether it accepts such a record. The words that the phase uses are then left in
   it. */
static int accepts(uint32_t kind, uint32_t phase, uint32_t opcode, uint32_t place)
{
    const uint32_t words[UND_RECORD_WORDS] = {kind, phase, opcode, LENGTH, place, HELD, 77, 88};

    memcpy(record, words, sizeof words);
    if (kind != UND_KIND_UARTBOOT)
        return und_rom_call(record, NULL, 0, NULL, 0, ram, RAM).number == 0;
    return und_uartboot_call(record, NULL, 0, NULL, 0, ram, RAM, flash, sizeof flash, work, sizeof work).number == 0;
}

/* The last opcode that is accepted, and how many there are. */
static uint32_t find_opcode(uint32_t kind, uint32_t phase, int *count)
{
    uint32_t found = 0;

    *count = 0;
    for (uint32_t opcode = 1; opcode < OPCODES; opcode++)
        if (accepts(kind, phase, opcode, 0)) {
            found = opcode;
            ++*count;
        }
    return found;
}

/* How many places, from 0 on, are accepted; 0 if one of them is not kept. */
static uint32_t count_places(uint32_t kind, uint32_t phase, uint32_t opcode)
{
    uint32_t place = 0;

    for (; place <= LENGTH && accepts(kind, phase, opcode, place); place++)
        if (record[UND_RECORD_PLACE] != place)
            return 0;
    return place;
}

static void say_phase(const char *name, uint32_t kind, uint32_t phase)
{
    int opcodes;
    uint32_t opcode = find_opcode(kind, phase, &opcodes), places = count_places(kind, phase, opcode);
    const char *words[4], *between = "";
    int count = 0;

    if (opcodes == 0)
        return;
    accepts(kind, phase, opcode, 0);
    if (record[UND_RECORD_OPCODE] == opcode)
        words[count++] = opcodes > 1 ? "opcode" : opcode == UND_OP_RUN ? "opcode (05)" : "opcode (one)";
    if (record[UND_RECORD_LENGTH] == LENGTH)
        words[count++] = "length";
    if (places != 1)
        words[count++] = places == LENGTH ? "place (below the length)"
                         : places == 4    ? "place (below 4)"
                                          : "place (any)";
    if (record[UND_RECORD_HELD] == HELD)
        words[count++] = "held";
    printf("%s %u: ", name, (unsigned)phase);
    for (int i = 0; i < count; i++, between = ", ")
        printf("%s%s", between, words[i]);
    printf("\n");
}

int main(void)
{
    for (uint32_t phase = 0; phase < PHASES; phase++)
        say_phase("P", UND_KIND_P, phase);
    for (uint32_t phase = 0; phase < PHASES; phase++)
        say_phase("E", UND_KIND_E, phase);
    for (uint32_t phase = 0; phase < PHASES; phase++)
        say_phase("uartboot", UND_KIND_UARTBOOT, phase);
    return 0;
}
