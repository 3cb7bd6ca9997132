#include "hex.h"

#include "exits.h"
#include "memory.h"
#include "record.h"
#include "say.h"
#include "undalisho.h"

#include <stdlib.h>
#include <string.h>

/* What the records say, and where it lies. */
typedef struct {
    hex_text text;
    uint32_t base; /* of the places in a record */
    bool wraps;    /* these wrap inside of 64 KiB, as they do in a segment */
    bool any;      /* there is data, from the lowest to the highest address */
    uint32_t lowest, highest;
    uint8_t *bytes; /* from the lowest address on */
    bool *given;    /* which of them the file has */
} layout;

/* What is done with a byte of data. Gives DONE, or the exit code after it has said what is wrong. */
typedef int taker(layout *l, uint32_t address, uint8_t byte);

static int note_address(layout *l, uint32_t address, uint8_t byte)
{
    (void)byte;
    if (!l->any || address < l->lowest)
        l->lowest = address;
    if (!l->any || address > l->highest)
        l->highest = address;
    l->any = true;
    return DONE;
}

static int lay_byte(layout *l, uint32_t address, uint8_t byte)
{
    uint32_t at = address - l->lowest;
    if (l->given[at] && l->bytes[at] != byte)
        return refuse_hex(&l->text, "address 0x%08X has %02X here, and %02X in an earlier line", address, byte,
                          l->bytes[at]);
    l->bytes[at] = byte;
    l->given[at] = true;
    return DONE;
}

static int take_data(layout *l, const hex_record *r, taker *take)
{
    int code = DONE;
    for (uint32_t i = 0; code == DONE && i < r->count; i++) {
        uint32_t place = r->place + i;
        code = take(l, l->base + (l->wraps ? place & 0xFFFF : place), r->data[i]);
    }
    return code;
}

static int take_record(layout *l, const hex_record *r, taker *take)
{
    if (r->type == DATA)
        return take_data(l, r, take);
    if (r->type == SEGMENT || r->type == LINEAR) {
        uint32_t number = (uint32_t)r->data[0] << 8 | r->data[1];
        l->wraps = r->type == SEGMENT;
        l->base = number << (l->wraps ? 4 : 16);
    }
    return DONE;
}

/* Goes over the text once. */
static int take_all(layout *l, const char *path, content file, taker *take)
{
    hex_record r;
    int code;
    l->text = hex_begin(path, file);
    l->base = 0;
    l->wraps = false;
    do {
        code = next_record(&l->text, &r);
        if (code == DONE)
            code = take_record(l, &r, take);
    } while (code == DONE && r.type != END);
    return code;
}

/* Code goes to RAM from the first byte on; the text may count from 0, or have the RAM's own addresses. */
static int check_addresses(const layout *l)
{
    if (l->any && l->highest - l->lowest >= UND_RAM_MAX)
        return refuse(UND_LONG_CODE, "%s reaches from 0x%08X to 0x%08X", l->text.path, l->lowest, l->highest);
    if (!l->any || l->lowest == 0 || l->lowest == UND_RAM_FIRST)
        return DONE;
    bool back = l->lowest > UND_RAM_FIRST;
    text next = {0};
    text_add(&next, "link it for 0x%08X; or move it: objcopy -I ihex -O ihex --change-addresses=%s0x%X FILE CODE",
             UND_RAM_FIRST, back ? "-" : "", back ? l->lowest - UND_RAM_FIRST : UND_RAM_FIRST - l->lowest);
    int code = refuse_unnumbered(next.chars, "refused: the lowest address of %s is 0x%08X, and has to be 0 or 0x%08X",
                                 l->text.path, l->lowest, UND_RAM_FIRST);
    text_free(&next);
    return code;
}

/* The byte at the lowest address is given, so a gap has one before it. */
static void list_gaps(const layout *l, code_file *c)
{
    c->gaps = memory_of((c->bytes.length / 2 + 1) * sizeof *c->gaps);
    for (size_t at = 1; at < c->bytes.length; at++) {
        uint32_t address = l->lowest + (uint32_t)at;
        if (!l->given[at] && l->given[at - 1])
            c->gaps[c->gap_count++].first = address;
        if (!l->given[at])
            c->gaps[c->gap_count - 1].last = address;
    }
}

int read_hex(const char *path, content file, code_file *c)
{
    layout l = {.any = false};
    int code = take_all(&l, path, file, note_address);
    if (code == DONE)
        code = check_addresses(&l);
    if (code != DONE)
        return code;
    size_t length = l.any ? (size_t)(l.highest - l.lowest) + 1 : 0;
    l.bytes = memory_of(length);
    l.given = memory_of(length * sizeof *l.given);
    memset(l.bytes, FILL, length);
    code = take_all(&l, path, file, lay_byte);
    c->bytes = (content){l.bytes, length};
    if (code == DONE)
        list_gaps(&l, c);
    free(l.given);
    return code;
}
