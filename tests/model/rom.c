/* The boot ROM's receiver, kinds P and E. */
#include "flow.h"
#include "model.h"
#include "record.h"

enum { LAST_PHASE = 11 };

static const uint32_t uses[LAST_PHASE + 1] = {
    [3] = USES(WORD_HELD),                      /* takes the length's high byte */
    [5] = USES(WORD_HELD),                      /* takes the extended length's high byte */
    [6] = USES(WORD_LENGTH),                    /* sends 06 */
    [7] = USES(WORD_LENGTH) | USES(WORD_PLACE), /* takes code */
    [8] = USES(WORD_LENGTH),                    /* sends the XOR */
    [9] = USES(WORD_LENGTH),                    /* takes the byte after it */
    [11] = USES(WORD_HELD),                     /* runs the code */
};

bool model_ram_length(size_t length)
{
    return length >= 1 && length <= MOST_RAM;
}

static bool sound(const uint32_t s[WORDS], size_t ram_length)
{
    uint32_t phase = s[WORD_PHASE];
    if (s[WORD_KIND] > KIND_E || phase > LAST_PHASE)
        return false;
    if ((phase == 4 || phase == 5) && s[WORD_KIND] == KIND_P)
        return false;
    if ((uses[phase] & USES(WORD_LENGTH)) && (s[WORD_LENGTH] == 0 || s[WORD_LENGTH] > ram_length))
        return false;
    if (phase == 11)
        return has_place(s, 0) && runs_in_ram(s, ram_length);
    return has_place(s, phase == 7 ? s[WORD_LENGTH] : 1);
}

static uint8_t xor_of(const uint8_t *code, size_t length)
{
    uint8_t x = 0;
    for (size_t i = 0; i < length; i++)
        x ^= code[i];
    return x;
}

static uint32_t follow(uint32_t *s, model_line *l, const model_memories *m)
{
    uint8_t b;
    uint64_t length;
    switch (s[WORD_PHASE]) {
    case 11: return RUNS;
    default:
        for (;;) {
            SEND(0, 0x02);
            TAKE(1, b);
            if (b != 0x01) {
                s[WORD_REASON] = 31;
                goto refuse;
            }
            TAKE(2, s[WORD_HELD]);
            TAKE(3, b);
            length = (uint64_t)s[WORD_HELD] + 256u * b;
            if (s[WORD_KIND] == KIND_E && length == 0) {
                TAKE(4, s[WORD_HELD]);
                TAKE(5, b);
                length = 65536 + (uint64_t)s[WORD_HELD] + 256u * b;
            }
            if (length == 0 || length > m->ram_length) {
                s[WORD_REASON] = length == 0 ? 32 : 33;
                goto refuse;
            }
            s[WORD_LENGTH] = (uint32_t)length;
            SEND(6, ACK);
            for (s[WORD_PLACE] = 0; s[WORD_PLACE] < s[WORD_LENGTH]; s[WORD_PLACE]++)
                TAKE(7, m->ram[s[WORD_PLACE]]);
            SEND(8, xor_of(m->ram, s[WORD_LENGTH]));
            TAKE(9, b);
            if (b == ACK) {
                s[WORD_HELD] = RAM_BASE;
                s[WORD_PHASE] = 11;
                return RUNS;
            }
            s[WORD_REASON] = 34;
            continue;
        refuse:
            SEND(10, NAK);
        }
    }
}

model_report model_rom_call(uint32_t record[WORDS], model_line *line, const model_memories *memories)
{
    if (!model_ram_length(memories->ram_length))
        return (model_report){2, 0, 0, 0};
    if (!sound(record, memories->ram_length))
        return (model_report){4, 0, 0, 0};
    uint32_t standing = follow(record, line, memories);
    keep_only(record, uses[record[WORD_PHASE]]);
    return (model_report){0, standing, line->taken, line->sent};
}
