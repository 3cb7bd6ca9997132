#include "code.h"

#include "exits.h"
#include "hex.h"
#include "memory.h"
#include "record.h"
#include "say.h"
#include "session.h"
#include "words.h"

#include <stdlib.h>
#include <string.h>

/* No more than this is read of a larger file; HEX text of a code that RAM has room for is far smaller. */
enum { LARGEST_FILE = 1 << 24 };

/* A file that is no code: how it begins, what it is, and what to do with it. */
typedef struct {
    const char *mark, *what, *next;
} form;

static const form forms[] = {
    {"\177ELF", "an ELF file", "'objcopy -O binary FILE CODE' makes its code: name CODE"},
    {"\x70\x51", "an image, which is a header with code after it",
     "'undalisho offer FILE FILE -o CODE' takes out its code: name CODE"},
    {"\x70\x52", "a product header, which belongs into the flash", "name a file with code"},
};

static const form frame_form = {NULL, "a boot frame", "name the code that it was made of: load makes the frame itself"};

/* Whether the receiver of a chip takes the file to its last byte, refuses nothing, and then runs the code in it. */
static bool is_frame(content file)
{
    session chip = {.ram = {memory_of(UND_RAM_MAX), UND_RAM_MAX}};
    uint8_t reply;
    size_t at = 0;
    und_report r;
    session_fresh(&chip, UND_KIND_E);
    do {
        r = session_turn(&chip, file.bytes + at, file.length - at, &reply, 1);
        at += r.taken;
    } while (r.taken + r.sent > 0 && chip.record[UND_RECORD_REASON] == 0);
    free(chip.ram.bytes);
    return r.standing == UND_RUNS && at == file.length && chip.record[UND_RECORD_REASON] == 0;
}

/* The form of a file that is no code, or NULL. */
static const form *form_of(content file)
{
    for (size_t i = 0; i < sizeof forms / sizeof *forms; i++) {
        size_t length = strlen(forms[i].mark);
        if (file.length >= length && memcmp(file.bytes, forms[i].mark, length) == 0)
            return &forms[i];
    }
    return is_frame(file) ? &frame_form : NULL;
}

/* Refuses bytes that are no code. Only those that are in the file as they are could be taken all the same. */
static int check_form(const char *path, content bytes, bool as_they_are)
{
    const form *f = form_of(bytes);
    if (!f)
        return DONE;
    text next = {0};
    text_add(&next, "%s%s", f->next, as_they_are ? "; --raw takes the file as it is" : "");
    int code = refuse_unnumbered(next.chars, "refused: %s is no code but %s", path, f->what);
    text_free(&next);
    return code;
}

int read_code(const char *path, bool raw, code_file *c)
{
    content file;
    *c = (code_file){.gap_count = 0};
    if (!read_file(path, LARGEST_FILE, &file))
        return fail_errno("name a file with the code's bytes", "%s cannot be read", path);
    if (!raw && file.length <= LARGEST_FILE && is_hex_text(file)) {
        int code = read_hex(path, file, c);
        free(file.bytes);
        return code == DONE ? check_form(path, c->bytes, false) : code;
    }
    c->bytes = file;
    return raw ? DONE : check_form(path, file, true);
}

void add_gap(text *t, const gap *g)
{
    text_add(t, "gap of ");
    add_count(t, (size_t)(g->last - g->first) + 1);
    text_add(t, " from 0x%08X to 0x%08X, filled with %02X", g->first, g->last, FILL);
}
