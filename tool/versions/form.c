#include "form.h"

#include "undalisho.h"

#include <string.h>

/* Of text its first line. */
static content beginning(const tray *t)
{
    if (!t->lines)
        return t->fields;
    raw_version first = version_at(t, 0);
    return (content){t->lines[0].kept, first.kept};
}

static bool is_utf16(content bytes)
{
    return bytes.length >= 2 && (memcmp(bytes.bytes, "\xFF\xFE", 2) == 0 || memcmp(bytes.bytes, "\xFE\xFF", 2) == 0);
}

/* Blank flash would pass for text; UTF-8 has no such byte. Fields that are filled with blanks have no line end. */
static bool looks_like_text(content bytes)
{
    bool has_lines = bytes.length < UND_VERSION_FIELD || memchr(bytes.bytes, '\n', bytes.length) ||
                     memchr(bytes.bytes, '\r', bytes.length);
    return has_lines && is_text(bytes) && !memchr(bytes.bytes, UND_FLASH_BLANK, bytes.length);
}

const char *other_form(const tray *t)
{
    content begin = beginning(t);
    if (is_utf16(begin))
        return "this looks like UTF-16 text: save it as UTF-8, and read it with --text";
    if (!t->lines)
        return looks_like_text(t->fields) ? "this looks like text: read it with --text, one version on a line" : NULL;
    if (!memchr(begin.bytes, 0, begin.length))
        return NULL;
    return strcmp(t->path, "-") == 0 ? "standard input is read as text: if it has fields, name a file with them"
                                     : "this does not look like text: if it has fields, leave out --text";
}
