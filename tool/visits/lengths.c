#include "lengths.h"

#include "due.h"
#include "otherwise.h"
#include "words.h"

enum { RAM, WORK, FLASH, MEMORIES };

/* A memory's lengths are multiples of the grain, up to the most. */
typedef struct {
    const char *name, *option;
    uint64_t grain, most;
    int byte; /* that a longer one has */
} kind;

static const kind kinds[MEMORIES] = {
    [RAM] = {"RAM", "--ram", 1, UND_RAM_MAX, 0},
    [WORK] = {"work buffer", "--work", 1, UND_WORK_MAX, 0},
    [FLASH] = {"flash", "--flash", UND_FLASH_SECTOR, UND_FLASH_MAX, UND_FLASH_BLANK},
};

static content *memory_in(session *s, int i)
{
    return i == RAM ? &s->ram : i == WORK ? &s->work : &s->flash;
}

/* How many bytes of each memory a command needs, as far as it has come. An address before the RAM becomes one far
   after it. */
static void find_needs(const walk *w, uint64_t needs[MEMORIES])
{
    und_command c = asked_for(w);
    uint32_t opcode = opcode_of(w);
    uint64_t count = payload_has(opcode, COUNT) ? c.count : 1;
    bool answers = opcode == UND_OP_READ || opcode == UND_OP_READ_QSPI;
    needs[RAM] = needs[FLASH] = 0;
    needs[WORK] = w->header[2] + 256u * w->header[3];
    if (c.number != 0)
        return;
    if (payload_has(opcode, ADDRESS))
        needs[RAM] = c.address - UND_RAM_FIRST + count;
    if (payload_has(opcode, OFFSET))
        needs[FLASH] = c.offset + count;
    if (answers && count > needs[WORK])
        needs[WORK] = count;
}

static void add_list(text *t, const bool named[MEMORIES], const char *joint, bool options)
{
    const char *before = "";
    for (int i = 0; i < MEMORIES; i++) {
        if (!named[i])
            continue;
        text_add(t, "%s%s", before, options ? kinds[i].option : kinds[i].name);
        before = joint;
    }
}

/* "the device's RAM and work buffer may be longer: state that with --ram and --work" */
static void add_named(text *t, const bool named[MEMORIES], const char *how, const char *joint)
{
    text_add(t, "the device's ");
    add_list(t, named, joint, false);
    text_add(t, " may be %s: state that with ", how);
    add_list(t, named, joint, true);
}

/* The shortest memory that is long enough for a command; one that the library refuses where none may be. */
static size_t enough(const kind *k, uint64_t needs)
{
    return (size_t)(needs > k->most ? k->most + 1 : (needs + k->grain - 1) / k->grain * k->grain);
}

bool add_longer(text *t, const found_reply *f)
{
    uint64_t needs[MEMORIES];
    bool named[MEMORIES];
    session s = copies_of(f->at->lent);
    find_needs(f->at, needs);
    for (int i = 0; i < MEMORIES; i++) {
        content *memory = memory_in(&s, i);
        named[i] = needs[i] > memory->length;
        if (named[i])
            resize(memory, enough(&kinds[i], needs[i]), kinds[i].byte);
    }
    bool explained = explains(s, f);
    if (explained)
        add_named(t, named, "longer", " and ");
    return explained;
}

/* Whether the longest memory that is too short for the command explains it. */
static bool shorter_explains(const found_reply *f, int i, uint64_t needs)
{
    const kind *k = &kinds[i];
    if (needs == 0)
        return false;
    session s = copies_of(f->at->lent);
    resize(memory_in(&s, i), (size_t)((needs - 1) / k->grain * k->grain), k->byte);
    return explains(s, f);
}

bool add_shorter(text *t, const found_reply *f)
{
    uint64_t needs[MEMORIES];
    bool named[MEMORIES], explained = false;
    find_needs(f->at, needs);
    for (int i = 0; i < MEMORIES; i++) {
        named[i] = shorter_explains(f, i, needs[i]);
        explained = explained || named[i];
    }
    if (explained)
        add_named(t, named, "shorter", " or ");
    return explained;
}
