#include "beside.h"

#include "recording.h"

#include <stdlib.h>
#include <string.h>

/* Whether a file has other bytes than the memory that was stated; one that can't be read could not be stated. */
static bool is_other(const char *path, content stated, size_t most)
{
    content c;
    if (!is_regular(path) || !read_file(path, most, &c))
        return false;
    bool other = c.length != stated.length || memcmp(c.bytes, stated.bytes, c.length) != 0;
    free(c.bytes);
    return other;
}

/* The length of a work buffer's file that is not the stated one; 0: there is none. */
static size_t other_length(const char *path, size_t stated)
{
    struct stat there;
    bool fits = is_regular(path) && stat(path, &there) == 0 && there.st_size <= UND_WORK_MAX;
    return fits && (size_t)there.st_size != stated ? (size_t)there.st_size : 0;
}

/* What to write on the command line: options in the place of others, and further ones. */
typedef struct {
    text put, add;
} advised;

/* Where an option is to be named: before the one in whose place it goes, if there is such a one. */
static text *begin_option(advised *a, const char *instead)
{
    if (!instead)
        return &a->add;
    text_add(&a->put, "%sput", a->put.length ? ", and " : "");
    return &a->put;
}

static void end_option(advised *a, const char *instead)
{
    if (instead)
        text_add(&a->put, " in the place of %s", instead);
}

static void advise_file(advised *a, const char *option, text path, const char *instead, content stated, size_t most)
{
    if (is_other(path.chars, stated, most)) {
        text *t = begin_option(a, instead);
        text_add(t, " %s ", option);
        text_add_path(t, path.chars);
        end_option(a, instead);
    }
    text_free(&path);
}

static void advise_length(advised *a, text path, size_t stated)
{
    const char *instead = stated != UND_WORK_MAX ? "--work" : NULL;
    size_t length = other_length(path.chars, stated);
    if (length > 0) {
        text_add(begin_option(a, instead), " --work %zu", length);
        end_option(a, instead);
    }
    text_free(&path);
}

/* --ram-from and --ram exclude each other. */
bool add_beside(text *t, const replay *r)
{
    advised a = {{0}, {0}};
    const char *path = r->visit.path;
    const session *stated = &r->memories;
    const char *ram = r->ram_file ? "the other --ram-from" : r->has_ram_length ? "--ram" : NULL;
    const char *flash = r->flash_file ? "the other --flash" : NULL;
    if (r->visit.standard)
        return false;
    advise_file(&a, "--ram-from", recorded_ram(path), ram, stated->ram, UND_RAM_MAX);
    advise_length(&a, recorded_work(path), stated->work.length);
    advise_file(&a, "--flash", recorded_flash(path), flash, stated->flash, UND_FLASH_MAX);
    bool some = a.put.length || a.add.length;
    if (a.put.length)
        text_add(t, "%s%s", a.put.chars, a.add.length ? ", and " : "");
    if (a.add.length)
        text_add(t, "add%s", a.add.chars);
    if (some)
        text_add(t, ": what lies beside the recording may be what the visit found");
    text_free(&a.put);
    text_free(&a.add);
    return some;
}
