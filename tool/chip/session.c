#include "session.h"

/* As undalisho.h has the phases of a receiver. */
static const phase rom_phases[] = {
    [0] = {.part = GREETING, .sends = true},      /* sends 02 */
    [1] = {.part = HEADER, .idle = true},         /* takes 01 */
    [2] = {.part = HEADER},                       /* takes the length */
    [3] = {.part = HEADER},                       /* .. */
    [4] = {.part = HEADER},                       /* takes the extended length */
    [5] = {.part = HEADER},                       /* .. */
    [6] = {.part = HEADER_ANSWER, .sends = true}, /* sends 06 */
    [7] = {.part = CODE, .bulk = true},           /* takes code */
    [8] = {.part = CHECKSUM, .sends = true},      /* sends the XOR */
    [9] = {.part = GO},                           /* takes the byte after it */
    [10] = {.part = REFUSAL, .sends = true},      /* sends 15 */
    [11] = {.part = RUNNING},                     /* runs the code */
};

/* As undalisho.h has the phases of uartboot. */
static const phase uartboot_phases[] = {
    [0] = {.part = GREETING, .sends = true},              /* sends 02 01 00 03 */
    [1] = {.part = HEADER, .idle = true},                 /* drops bytes until 01 */
    [2] = {.part = HEADER},                               /* takes the opcode */
    [3] = {.part = HEADER},                               /* takes the length */
    [4] = {.part = HEADER},                               /* .. */
    [5] = {.part = HEADER_ANSWER, .sends = true},         /* sends 06 */
    [6] = {.part = PAYLOAD, .bulk = true},                /* takes the payload */
    [7] = {.part = CHECKSUM, .sends = true},              /* sends 06 */
    [8] = {.part = CHECKSUM, .sends = true},              /* sends the CRC */
    [9] = {.part = CHECKSUM, .sends = true},              /* .. */
    [10] = {.part = GO},                                  /* takes the byte on which it executes */
    [11] = {.part = ANSWER_LENGTH, .sends = true},        /* sends the answer's length */
    [12] = {.part = ANSWER_LENGTH, .sends = true},        /* .. */
    [13] = {.part = ANSWER_GO},                           /* takes 06 */
    [14] = {.part = ANSWER, .sends = true, .bulk = true}, /* sends the answer */
    [15] = {.part = ANSWER_CRC},                          /* takes the host's CRC */
    [16] = {.part = ANSWER_CRC},                          /* .. */
    [17] = {.part = ANSWER_END, .sends = true},           /* sends 06 */
    [18] = {.part = REFUSAL, .sends = true},              /* sends 15 */
    [19] = {.part = RUNNING},                             /* runs code */
};

phase phase_of(const uint32_t record[UND_RECORD_WORDS])
{
    uint32_t number = record[UND_RECORD_PHASE];
    return record[UND_RECORD_KIND] == UND_KIND_UARTBOOT ? uartboot_phases[number] : rom_phases[number];
}

void session_fresh(session *s, uint32_t kind)
{
    if (kind == UND_KIND_UARTBOOT)
        und_uartboot_fresh(s->record);
    else
        und_rom_fresh(kind, s->record);
}

static und_report call(session *s, const uint8_t *input, size_t input_len, uint8_t *reply, size_t reply_len)
{
    if (s->record[UND_RECORD_KIND] == UND_KIND_UARTBOOT)
        return und_uartboot_call(s->record, input, input_len, reply, reply_len, s->ram.bytes, s->ram.length,
                                 s->flash.bytes, s->flash.length, s->work.bytes, s->work.length);
    return und_rom_call(s->record, input, input_len, reply, reply_len, s->ram.bytes, s->ram.length);
}

und_report session_turn(session *s, const uint8_t *input, size_t input_len, uint8_t *reply, size_t reply_len)
{
    phase now = phase_of(s->record);
    size_t most = now.bulk ? SIZE_MAX : 1;
    if (now.sends)
        return call(s, NULL, 0, reply, reply_len < most ? reply_len : most);
    return call(s, input, input_len < most ? input_len : most, NULL, 0);
}

size_t session_greeting(uint32_t kind, uint8_t bytes[MOST_GREETING])
{
    static uint8_t ram[1], flash[UND_FLASH_SECTOR], work[UND_WORK_MIN];
    session s = {.ram = {ram, sizeof ram}, .flash = {flash, sizeof flash}, .work = {work, sizeof work}};
    size_t count = 0;
    session_fresh(&s, kind);
    while (phase_of(s.record).part == GREETING && count < MOST_GREETING)
        count += session_turn(&s, NULL, 0, bytes + count, MOST_GREETING - count).sent;
    return count;
}
