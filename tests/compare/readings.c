/* What headers and commands say. */
#include "readings.h"

#include "fill.h"
#include "lend.h"
#include "model.h"
#include "seen.h"
#include "undalisho.h"

#include <string.h>

void same_image(trial *t, const uint8_t *lent, const uint8_t *kept, size_t length, uint32_t offset)
{
    und_image got = und_read_image(length ? lent : NULL, length, offset);
    model_image want = model_read_image(kept, length, offset);
    tell(t, "image at %u: rule %u, id %u, size %u\n", offset, want.rule, want.id, want.size);
    seen(SEEN_RULE, want.rule);
    same_number(t, "image's rule", got.rule, want.rule);
    same_number(t, "image's id", got.id, want.id);
    same_number(t, "image's size", got.size, want.size);
    same_number(t, "place of the version", got.version_place, want.version_place);
    same_number(t, "place of the code", got.code_place, want.code_place);
    t->calls++;
}

void same_product(trial *t, const uint8_t *lent, const uint8_t *kept, size_t length, uint32_t header)
{
    und_product got = und_read_product(length ? lent : NULL, length, header);
    model_product want = model_read_product(kept, length, header);
    tell(t, "product header at %u: number %u, images at %u and %u\n", header, want.number, want.first, want.second);
    seen(SEEN_PRODUCT_NUMBER, want.number);
    same_number(t, "product header's number", got.number, want.number);
    same_number(t, "offset of image 1", got.first, want.first);
    same_number(t, "offset of image 2", got.second, want.second);
    t->calls++;
}

enum { LONGEST_PAYLOAD = 2 * 65536 + 64 };

static uint32_t command_opcode(trial *t)
{
    uint32_t opcode = model_opcode(pick(t->c, model_opcodes()));
    if (once_in(t->c, 4))
        opcode = pick(t->c, 32);
    if (once_in(t->c, 12))
        opcode += 1u << (8 + pick(t->c, 24));
    return opcode;
}

static size_t payload_length(trial *t)
{
    static const uint64_t edges[] = {65535, 65536 + 4, 65536 + 6, 65536 + 8, 65536 + 10, 2 * 65536};
    if (once_in(t->c, 12))
        return near_edges(t->c, edges, sizeof edges / sizeof *edges);
    return pick(t->c, once_in(t->c, 8) ? 400 : 13);
}

void command_case(trial *t)
{
    static shelf held;
    static uint8_t payload[LONGEST_PAYLOAD];
    if (!held.first)
        shelf_build(&held, sizeof payload);
    uint32_t opcode = command_opcode(t);
    size_t length = payload_length(t);
    uint8_t *lent = shelf_lend(&held, length, !once_in(t->c, 3));
    fill(t->c, payload, length);
    memcpy(lent, payload, length);
    tell_bytes(t, "payload", lent, length);
    und_command got = und_read_command(opcode, length ? lent : NULL, length);
    model_command want = model_read_command(opcode, payload, length);
    tell(t, "command %u: number %u, address %u, offset %u, count %u, verify %u\n", opcode, want.number, want.address,
         want.offset, want.count, want.verify);
    seen(SEEN_COMMAND_NUMBER, want.number);
    if (want.number == 0)
        seen(SEEN_COMMAND_OPCODE, opcode);
    same_number(t, "command's number", got.number, want.number);
    same_number(t, "command's address", got.address, want.address);
    same_number(t, "command's offset", got.offset, want.offset);
    same_number(t, "command's count", got.count, want.count);
    same_number(t, "command's verify byte", got.verify, want.verify);
    same_bytes(t, "lent payload", lent, payload, length);
    if (!shelf_intact(&held))
        differ(t, "a byte beside the payload was written");
    t->calls++;
}
