#include "tray.h"

#include "exits.h"
#include "field.h"
#include "memory.h"
#include "say.h"

#include <string.h>
#include <unistd.h>

/* One more than a tray may have: the library says that it is too many. */
enum { MOST_READ = UND_TRAY_MAX + 1, LARGEST_TEXT = 1 << 24 };

static int fail_to_read(const tray *t)
{
    return fail_errno("name a file with versions", "%s cannot be read", t->name);
}

static int read_fields(tray *t)
{
    if (!read_file(t->path, MOST_READ * UND_VERSION_FIELD - 1, &t->fields))
        return fail_to_read(t);
    t->count = t->fields.length / UND_VERSION_FIELD;
    return DONE;
}

static int read_lines(tray *t, FILE *file)
{
    line_reader reader = begin_lines(file, LARGEST_TEXT + 1);
    t->lines = memory_of(MOST_READ * sizeof *t->lines);
    t->fields.bytes = memory_of(MOST_READ * UND_VERSION_FIELD);
    while (t->count < MOST_READ && next_text_line(&reader, &t->lines[t->count])) {
        const text_line *line = &t->lines[t->count];
        make_field(t->fields.bytes + t->count * UND_VERSION_FIELD, line->kept, line->length);
        t->count++;
    }
    t->fields.length = t->count * UND_VERSION_FIELD;
    if (ferror(file))
        return fail_to_read(t);
    if (reader.left == 0 && t->count < MOST_READ)
        return fail("name a list of versions, one on a line", "%s is too large to be read", t->name);
    return DONE;
}

static int read_standard_input(tray *t)
{
    if (isatty(STDIN_FILENO))
        fprintf(stderr, "undalisho: type versions, one on a line; Ctrl-D ends the list\n");
    return read_lines(t, stdin);
}

static int read_text_file(tray *t)
{
    FILE *file = fopen(t->path, "r");
    if (!file)
        return fail_to_read(t);
    int code = read_lines(t, file);
    fclose(file);
    return code;
}

int read_tray(tray *t, const char *path, bool is_text)
{
    bool standard = strcmp(path, "-") == 0;
    *t = (tray){.path = path, .name = standard ? "standard input" : path};
    if (standard)
        return read_standard_input(t);
    return is_text ? read_text_file(t) : read_fields(t);
}

static raw_version field_version(const uint8_t *field)
{
    size_t length = UND_VERSION_FIELD;
    while (length > 0 && field[length - 1] == 0)
        length--;
    return (raw_version){field, length, length, true};
}

raw_version version_at(const tray *t, size_t index)
{
    if (!t->lines)
        return field_version(t->fields.bytes + index * UND_VERSION_FIELD);
    const text_line *line = &t->lines[index];
    return (raw_version){line->kept, line->length < KEPT ? line->length : KEPT, line->length, false};
}
