#include "openings.h"

#include "options.h"
#include "say.h"
#include "signals.h"

#include <errno.h>
#include <string.h>

static bool is_same(const file_use *a, const file_use *b)
{
    return a->path && b->path && (strcmp(a->path, b->path) == 0 || is_same_file(a->path, b->path));
}

/* The first of them that clashes with another one, or NULL. */
static const file_use *find_clash(const file_use *uses, size_t count, const file_use *other)
{
    for (; count > 0; count--, uses++)
        if ((uses->written || other->written) && is_same(uses, other))
            return uses;
    return NULL;
}

bool are_separate(const file_use *uses, size_t count)
{
    for (size_t i = 0; i < count; i++) {
        const file_use *clash = find_clash(uses, i, &uses[i]);
        if (clash) {
            misuse("%s and %s must not be the same file", clash->name, uses[i].name);
            return false;
        }
    }
    return true;
}

int write_output(const char *path, const uint8_t *bytes, size_t length)
{
    if (write_file(path, bytes, length))
        return DONE;
    return fail_errno("give a place with room that you may write to; an older file there stays as it was",
                      "%s cannot be written", path);
}

int catch_signals(bool with_button)
{
    return signals_catch(with_button) ? DONE : fail_errno("try again", "signals cannot be caught");
}

int open_log(event_log *l)
{
    l->json = say_json;
    if (!log_open(l))
        return fail_errno("give --log a file that you may write to", "%s cannot be written", l->path);
    log_visit(l);
    return DONE;
}

int open_port(line *l, const char *path, unsigned long baud)
{
    if (line_open(l, path, baud))
        return DONE;
    if (errno == EBUSY)
        return end_with(BUSY, "end the other program, or name another port", "busy: another program uses %s", path);
    return fail_errno("plug the adapter in, see which device it is, and that you may use it", "%s cannot be opened",
                      path);
}
