#include "range.h"

#include "undalisho.h"
#include "words.h"

typedef struct {
    const char *name, *unit; /* what it is called, and what a place in it is called */
    int digits;              /* of such a place */
    int64_t base, length;
    int64_t grain, most;        /* lengths that it may have: multiples of the grain, up to the most */
    const char *longer, *bytes; /* what to give a longer one by: a number stands between them */
} memory;

/* `first` counts from the memory's first byte on. */
typedef struct {
    const memory *in;
    int64_t first, count;
} range;

bool is_of_range(uint32_t reason)
{
    return reason == UND_OUTSIDE_MEMORY || reason == UND_PAST_END;
}

static bool is_wrong(range r)
{
    return r.first < 0 || r.first >= r.in->length || r.first + r.count > r.in->length;
}

/* How many bytes its start or its end is after the memory's last byte; below 0, how many before the first. */
static int64_t bytes_off(range r, bool start)
{
    if (r.first < 0)
        return r.first;
    return r.first + (start ? 1 : r.count) - r.in->length;
}

static void add_place(text *t, range r, int64_t place)
{
    text_add(t, "0x%0*llX", r.in->digits, (unsigned long long)(r.in->base + place));
}

static void add_what(text *t, range r, bool start)
{
    int64_t off = bytes_off(r, start);
    text_add(t, "the %s is outside %s: ", start ? "start" : "end", r.in->name);
    if (!start) {
        add_count(t, (size_t)r.count);
        text_add(t, " from ");
    }
    text_add(t, "%s ", r.in->unit);
    add_place(t, r, r.first);
    text_add(t, start ? " is " : " on reach ");
    add_count(t, (size_t)(off < 0 ? -off : off));
    text_add(t, " %s %s's %s byte, ",
             off < 0 ? "before"
             : start ? "after"
                     : "past",
             r.in->name, off < 0 ? "first" : "last");
    add_place(t, r, off < 0 ? 0 : r.in->length - 1);
}

/* The memory is perhaps shorter than meant: what would hold the range. */
static void add_longer(text *t, range r)
{
    const memory *m = r.in;
    int64_t needs = (r.first + r.count + m->grain - 1) / m->grain * m->grain;
    if (r.first >= 0 && needs <= m->most)
        text_add(t, "; or %s is shorter than meant: %s%lld%s would hold it", m->name, m->longer, (long long)needs,
                 m->bytes);
}

/* What to look at. A file that is sent or copied in pieces may begin a piece after the end. */
static void add_next(text *t, range r, bool start, uint32_t opcode)
{
    bool sends = opcode == UND_OP_WRITE || opcode == UND_OP_DIRECT_WRITE, stores = sends || opcode == UND_OP_COPY;
    const char *too_long = sends ? "file" : stores ? "file or the count" : "count";
    if (start) {
        text_add(t, "check the %s: it may be mistyped", r.in->unit);
        text_add(t, stores && r.first >= 0 ? ", or the file is too long" : "");
    } else {
        text_add(t, sends ? "send " : "ask for ");
        add_count(t, (size_t)bytes_off(r, start));
        text_add(t, " less: the %s may be too long, or the %s mistyped", too_long, r.in->unit);
    }
    add_longer(t, r);
}

/* RAM is judged before flash. */
static range wrong_range(const refused_command *c, const memory *ram, const memory *flash)
{
    und_command said = und_read_command(c->opcode, c->payload, c->payload_length);
    int64_t count = payload_has(c->opcode, COUNT) ? said.count : 1;
    range in_ram = {ram, (int64_t)said.address - UND_RAM_FIRST, count}, in_flash = {flash, said.offset, count};
    return payload_has(c->opcode, ADDRESS) && is_wrong(in_ram) ? in_ram : in_flash;
}

void add_range(const refused_command *c, text *what, text *next, text *fields)
{
    const memory ram = {.name = "RAM",
                        .unit = "address",
                        .digits = 8,
                        .base = UND_RAM_FIRST,
                        .length = (int64_t)c->ram_length,
                        .grain = 1,
                        .most = UND_RAM_MAX,
                        .longer = "--ram ",
                        .bytes = ""};
    const memory flash = {.name = "flash",
                          .unit = "offset",
                          .digits = 5,
                          .base = 0,
                          .length = (int64_t)c->flash_length,
                          .grain = UND_FLASH_SECTOR,
                          .most = UND_FLASH_MAX,
                          .longer = "a --flash file of ",
                          .bytes = " bytes"};
    range r = wrong_range(c, &ram, &flash);
    bool start = c->reason == UND_OUTSIDE_MEMORY;
    add_what(what, r, start);
    add_next(next, r, start, c->opcode);
    text_add(fields, ",\"memory\":\"%s\",\"off_by\":%lld", r.in->name, (long long)bytes_off(r, start));
}
