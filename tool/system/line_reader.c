#include "line_reader.h"

line_reader begin_lines(FILE *file, size_t most)
{
    line_reader r = {.file = file};
    r.count = fread(r.begin, 1, MARK, file);
    r.left = most - r.count;
    r.begun = mark_length((content){r.begin, r.count});
    return r;
}

static int next_byte(line_reader *r)
{
    if (r->begun < r->count)
        return r->begin[r->begun++];
    int byte = r->left > 0 ? getc(r->file) : EOF;
    r->left -= byte != EOF;
    return byte;
}

/* The next byte of a line, LF for any end of one, or EOF. */
static int next_character(line_reader *r)
{
    int byte = next_byte(r);
    if (byte == '\n' && r->after_cr)
        byte = next_byte(r);
    r->after_cr = byte == '\r';
    return r->after_cr ? '\n' : byte;
}

/* Reads a line, blank or not. Gives false where it is the last. */
static bool read_line(line_reader *r, text_line *line)
{
    size_t at = 0; /* how many characters have come since the blanks in front */
    int c = next_character(r);
    *line = (text_line){.number = ++r->number};
    for (; c != '\n' && c != EOF; c = next_character(r)) {
        bool blank = is_blank((uint8_t)c);
        if (at == 0 && blank)
            continue;
        if (at < KEPT)
            line->kept[at] = (uint8_t)c;
        at++;
        line->length = blank ? line->length : at;
    }
    return c != EOF;
}

bool next_text_line(line_reader *r, text_line *line)
{
    while (read_line(r, line) && line->length == 0) {
    }
    return line->length > 0;
}
