#include "fault.h"

#include "undalisho.h"

/* The rules of a text, as undalisho.h has them. They only choose the words for what the library has found malformed. */
enum { MOST_NUMBERS = 4, LARGEST_NUMBER = 65535 };

static bool is_digit(uint8_t c)
{
    return c >= '0' && c <= '9';
}

/* Where the digits end that begin at a place. */
static size_t digits_end(const raw_version *v, size_t at)
{
    while (at < v->kept && is_digit(v->bytes[at]))
        at++;
    return at;
}

static bool is_above(const raw_version *v, size_t at, size_t end)
{
    uint32_t number = 0;
    while (at < end && number <= LARGEST_NUMBER)
        number = 10 * number + (uint32_t)(v->bytes[at++] - '0');
    return number > LARGEST_NUMBER;
}

/* A character that is no ASCII may look like one that is: its bytes are shown too. */
static void add_visible(text *t, const uint8_t *bytes, size_t length)
{
    text_add_json(t, (const char *)bytes, length);
    if (length == 1)
        return;
    text_add(t, " (");
    text_add_hex(t, bytes, length, " ");
    text_add(t, ")");
}

static void add_character(text *t, const uint8_t *bytes, size_t count)
{
    size_t length = text_character(bytes, count);
    switch (*bytes) {
    case ' ': text_add(t, "a blank"); return;
    case '\t': text_add(t, "a tab"); return;
    case '\r':
    case '\n': text_add(t, "a line end"); return;
    }
    if (length == 0 || *bytes < ' ' || *bytes == 0x7F)
        text_add(t, "the byte %02X", *bytes);
    else
        add_visible(t, bytes, length);
}

/* A byte that is neither digit nor dot. The text of a field ends with its first 00. */
static void add_strange(text *t, const raw_version *v, size_t at)
{
    if (v->in_field && v->bytes[at] == 0) {
        size_t after = at;
        while (after + 1 < v->kept && v->bytes[after] == 0)
            after++;
        text_add(t, "the 00 at byte %zu ends its text, and byte %zu is not 00", at + 1, after + 1);
        return;
    }
    text_add(t, "character %zu is ", at + 1);
    add_character(t, v->bytes + at, v->kept - at);
    text_add(t, ", and a version has only digits and dots");
}

static void add_missing(text *t, const raw_version *v, size_t at)
{
    if (at == v->kept)
        text_add(t, "there is no number after the last dot");
    else if (at == 0)
        text_add(t, "there is no number before the first dot");
    else
        text_add(t, "there is no number between the dots at characters %zu and %zu", at, at + 1);
}

/* What is wrong with a number from its first digit up to the dot after it, or to the end. Gives false where nothing
   is. */
static bool add_number_fault(text *t, const raw_version *v, size_t at, size_t number)
{
    size_t end = digits_end(v, at);
    bool ended = end == v->kept || v->bytes[end] == '.';
    if (at == end && ended)
        add_missing(t, v, at);
    else if (at == end)
        add_strange(t, v, at);
    else if (number > MOST_NUMBERS)
        text_add(t, "it has more than %d numbers", MOST_NUMBERS);
    else if (v->bytes[at] == '0' && end - at > 1)
        text_add(t, "number %zu has a leading zero", number);
    else if (is_above(v, at, end))
        text_add(t, "number %zu is above %d", number, LARGEST_NUMBER);
    else if (!ended)
        add_strange(t, v, end);
    else
        return false;
    return true;
}

void add_fault(text *t, const raw_version *v)
{
    size_t number = 1;
    if (v->length == 0) {
        text_add(t, "it is empty");
        return;
    }
    for (size_t at = 0; at <= v->kept; at = digits_end(v, at) + 1)
        if (add_number_fault(t, v, at, number++))
            return;
    if (v->length > UND_VERSION_FIELD)
        text_add(t, "it has %zu characters, and at most %d fit", v->length, UND_VERSION_FIELD);
    else
        text_add(t, "it breaks a rule that this program does not know");
}
