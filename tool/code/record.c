#include "record.h"

#include "exits.h"
#include "plain_text.h"
#include "say.h"

#include <stdarg.h>
#include <string.h>

/* What a record has besides its data, in bytes: count, place (2), type, checksum. NO_DIGIT is no digit's value. */
enum { BEFORE_DATA = 4, AROUND_DATA = 5, NO_DIGIT = 16, ANY_COUNT = -1 };

int refuse_hex(const hex_text *t, const char *what, ...)
{
    text words = {0};
    va_list args;
    va_start(args, what);
    text_add_args(&words, what, args);
    va_end(args);
    int code =
        refuse_unnumbered("export the file again as Intel HEX; if it is no such text, --raw takes the file as it is",
                          "refused: %s, line %zu: %s", t->path, t->line, words.chars);
    text_free(&words);
    return code;
}

static content skip_blanks(content c)
{
    while (c.length > 0 && is_blank(*c.bytes)) {
        c.bytes++;
        c.length--;
    }
    return c;
}

static content cut_blanks(content c)
{
    while (c.length > 0 && is_blank(c.bytes[c.length - 1]))
        c.length--;
    return c;
}

/* How many bytes the first line has, with its end: LF, CR or both. */
static size_t line_length(content c)
{
    size_t at = 0;
    while (at < c.length && c.bytes[at] != '\n' && c.bytes[at] != '\r')
        at++;
    bool both = at + 1 < c.length && c.bytes[at] == '\r' && c.bytes[at + 1] == '\n';
    return at + (at < c.length) + both;
}

static content take_line(hex_text *t)
{
    content line = {t->left.bytes, line_length(t->left)};
    t->left = (content){line.bytes + line.length, t->left.length - line.length};
    t->line++;
    return line;
}

/* The next line that is not blank, without the blanks around it; an empty one where there is none. */
static content next_line(hex_text *t)
{
    content line = {NULL, 0};
    while (line.length == 0 && t->left.length > 0)
        line = skip_blanks(cut_blanks(take_line(t)));
    return line;
}

static uint32_t value_of(uint8_t digit)
{
    if (digit >= '0' && digit <= '9')
        return (uint32_t)(digit - '0');
    digit |= 0x20; /* as a small letter */
    return digit >= 'a' && digit <= 'f' ? (uint32_t)(digit - 'a' + 10) : NO_DIGIT;
}

static uint8_t byte_at(const uint8_t *digits, size_t place)
{
    return (uint8_t)(value_of(digits[2 * place]) << 4 | value_of(digits[2 * place + 1]));
}

static size_t count_digits(const uint8_t *digits, size_t length)
{
    size_t count = 0;
    while (count < length && value_of(digits[count]) != NO_DIGIT)
        count++;
    return count;
}

/* Whether a line begins as records do: a colon, and the digits of the shortest of them. */
static bool begins_record(content line)
{
    enum { DIGITS = 2 * AROUND_DATA };
    return line.length > DIGITS && *line.bytes == ':' && count_digits(line.bytes + 1, DIGITS) == DIGITS;
}

static bool has_record(content file)
{
    hex_text t = {.left = file};
    content line = next_line(&t);
    while (line.length > 0 && !begins_record(line))
        line = next_line(&t);
    return line.length > 0;
}

hex_text hex_begin(const char *path, content file)
{
    size_t skipped = mark_length(file);
    return (hex_text){.path = path, .left = {file.bytes + skipped, file.length - skipped}};
}

bool is_hex_text(content file)
{
    content begins = skip_blanks(hex_begin(NULL, file).left);
    return (begins.length > 0 && *begins.bytes == ':') || (is_text(file) && has_record(file));
}

/* Whether the line has the characters of a record, and as many as it says; says so if not. */
static int check_line(const hex_text *t, content line)
{
    size_t characters = line.length - 1, digits = count_digits(line.bytes + 1, characters), bytes = digits / 2;
    if (*line.bytes != ':')
        return refuse_hex(t, "a record begins with ':', and this does not");
    if (digits < characters)
        return refuse_hex(t, "character %zu of the record is no hexadecimal digit", digits + 2);
    if (digits % 2 != 0)
        return refuse_hex(t, "the record has %zu digits, and two make a byte", digits);
    if (bytes < AROUND_DATA)
        return refuse_hex(t, "the record has %zu bytes, and the shortest has %d", bytes, AROUND_DATA);
    size_t count = byte_at(line.bytes + 1, 0);
    if (bytes != count + AROUND_DATA)
        return refuse_hex(t, "the record says %zu bytes of data, and has %zu", count, bytes - AROUND_DATA);
    return DONE;
}

/* Whether there is such a type, and the record has as much data as the type; says so if not. */
static int check_type(const hex_text *t, const hex_record *r)
{
    static const int counts[TYPES] = {
        [DATA] = ANY_COUNT, [END] = 0, [SEGMENT] = 2, [SEGMENT_START] = 4, [LINEAR] = 2, [LINEAR_START] = 4};
    if (r->type >= TYPES)
        return refuse_hex(t, "type %02X is unknown; there are 00 to %02X", r->type, TYPES - 1);
    if (counts[r->type] != ANY_COUNT && (uint32_t)counts[r->type] != r->count)
        return refuse_hex(t, "type %02X has %d bytes of data, and this record %u", r->type, counts[r->type], r->count);
    return DONE;
}

/* Gives the sum of the bytes. */
static uint8_t read_bytes(const uint8_t *digits, size_t count, uint8_t *bytes)
{
    uint8_t sum = 0;
    for (size_t i = 0; i < count; i++) {
        bytes[i] = byte_at(digits, i);
        sum = (uint8_t)(sum + bytes[i]);
    }
    return sum;
}

static int read_record(const hex_text *t, content line, hex_record *r)
{
    uint8_t bytes[AROUND_DATA + MOST_DATA];
    int code = check_line(t, line);
    if (code != DONE)
        return code;
    size_t count = line.length / 2;
    uint8_t sum = read_bytes(line.bytes + 1, count, bytes), checksum = bytes[count - 1];
    if (sum != 0)
        return refuse_hex(t, "the record's checksum is %02X, and its other bytes want %02X", checksum,
                          (uint8_t)(checksum - sum));
    *r = (hex_record){.type = bytes[3], .place = (uint32_t)bytes[1] << 8 | bytes[2], .count = bytes[0]};
    memcpy(r->data, bytes + BEFORE_DATA, r->count);
    return check_type(t, r);
}

int next_record(hex_text *t, hex_record *r)
{
    content line = next_line(t);
    if (line.length == 0)
        return refuse_hex(t, "the text ends here without an end record");
    int code = read_record(t, line, r);
    if (code == DONE && r->type == END && next_line(t).length > 0)
        return refuse_hex(t, "the end record was before, and here is more");
    return code;
}
