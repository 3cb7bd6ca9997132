/* undalisho replay: whether a recorded visit is what uartboot answers. */
#include "replay.h"

#include "commands.h"
#include "exits.h"
#include "memories.h"
#include "options.h"
#include "say.h"
#include "words.h"

typedef struct {
    const char *ram_length, *ram_file, *flash_file;
    unsigned long ram, work;
} replay_options;

static bool read_replay_options(int count, char **words, replay_options *o)
{
    const option options[] = {
        {"--ram", WORD, &o->ram_length},   {"--ram-from", WORD, &o->ram_file}, {"--work", NUMBER, &o->work},
        {"--flash", WORD, &o->flash_file}, {"--json", FLAG, &say_json},        {NULL, FLAG, NULL},
    };
    *o = (replay_options){.ram = UND_RAM_MAX, .work = UND_WORK_MAX};
    if (read_options(count, words, options, 1, 1) < 0)
        return false;
    if (o->ram_length && o->ram_file) {
        misuse("--ram-from gives the RAM's length too: leave out --ram");
        return false;
    }
    return !o->ram_length || read_option_number("--ram", o->ram_length, &o->ram);
}

/* Adds words for a memory: its length is the one that was asked for. */
static void state(replay *r, const char *name, size_t length, const char *of)
{
    text *t = &r->stated;
    text_add(t, "%s%s ", t->length ? ", " : "", name);
    add_count(t, length);
    text_add(t, " (%s)", of);
}

/* A memory with a file's bytes; of a file that is too long, one more than it may have. */
static int lend_file(replay *r, content *memory, const char *name, const char *path, size_t most)
{
    if (!read_file(path, most, memory))
        return fail_errno("name a file that can be read", "%s, for the %s, cannot be read", path, name);
    state(r, name, memory->length, path);
    if (memory->length > most)
        text_add(&r->stated, " or more");
    return DONE;
}

static int lend_zeros(replay *r, content *memory, const char *name, unsigned long length, size_t most)
{
    *memory = zeros(length, most);
    state(r, name, length, "zeros");
    return DONE;
}

static int lend_memories(replay *r, const replay_options *o)
{
    session *s = &r->memories;
    int code = o->ram_file ? lend_file(r, &s->ram, "RAM", o->ram_file, UND_RAM_MAX)
                           : lend_zeros(r, &s->ram, "RAM", o->ram, UND_RAM_MAX);
    if (code != DONE)
        return code;
    lend_zeros(r, &s->work, "work buffer", o->work, UND_WORK_MAX);
    if (o->flash_file)
        return lend_file(r, &s->flash, "flash", o->flash_file, UND_FLASH_MAX);
    s->flash = filled(USUAL_FLASH, UND_FLASH_BLANK);
    state(r, "flash", USUAL_FLASH, "blank");
    return DONE;
}

int run_replay(int count, char **words)
{
    static replay r;
    replay_options o;
    if (!read_replay_options(count, words, &o))
        return MISUSED;
    r.ram_file = o.ram_file;
    r.flash_file = o.flash_file;
    r.has_ram_length = o.ram_length;
    int code = lend_memories(&r, &o);
    if (code == DONE)
        code = read_recorded(&r.visit, words[0]);
    if (code != DONE)
        return code;
    r.ram_length = o.ram_file ? r.memories.ram.length : o.ram;
    r.work_length = o.work;
    replay_ask(&r);
    if (r.answer.number != 0)
        return tell_refused(&r);
    return r.answer.equal ? tell_equal(&r) : tell_different(&r);
}
