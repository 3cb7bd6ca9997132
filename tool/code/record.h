/* Intel HEX text, record by record. */
#ifndef RECORD_H
#define RECORD_H

#include "files.h"
#include "text.h"

/* The types of records. */
enum { DATA, END, SEGMENT, SEGMENT_START, LINEAR, LINEAR_START, TYPES };

/* A record's count has one byte. */
enum { MOST_DATA = 255 };

typedef struct {
    const char *path;
    content left; /* what was not read yet */
    size_t line;  /* the number of the line that was read last */
} hex_text;

typedef struct {
    uint32_t type, place, count;
    uint8_t data[MOST_DATA];
} hex_record;

/* Whether a file is Intel HEX text: its first character, white space aside, begins a record; or it is a text that has a
   line which does. */
bool is_hex_text(content file);

/* The text of a file, before its first line; a mark that it is UTF-8 is passed over. */
hex_text hex_begin(const char *path, content file);

/* Reads the next record, which is there: only white space may follow the end record, and no text ends without one.
   Gives DONE, or the exit code after it has said what is wrong. */
int next_record(hex_text *t, hex_record *r);

/* Says what is wrong in the line that was read last. Gives the exit code. */
int refuse_hex(const hex_text *t, const char *what, ...) LIKE_PRINTF(2, 3);

#endif
