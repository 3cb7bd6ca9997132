/* Text that is read line by line, and no further than it is asked for. */
#ifndef LINE_READER_H
#define LINE_READER_H

#include "plain_text.h"

#include <stdio.h>

/* How many bytes of a line are kept at most. */
enum { KEPT = 40 };

/* A line without the blanks around it. */
typedef struct {
    size_t number, length; /* the file's first line has number 1; blank lines count too */
    uint8_t kept[KEPT];    /* its first bytes */
} text_line;

typedef struct {
    FILE *file;
    size_t left;         /* how many more bytes may be read */
    size_t number;       /* of the line that was read last */
    uint8_t begin[MARK]; /* the file's first `count` bytes, of which those from `begun` on are not taken yet */
    size_t begun, count;
    bool after_cr;
} line_reader;

/* Begins to read a text, and reads no more of it than `most` bytes, 3 or more. A mark that it is UTF-8 is passed
   over. */
line_reader begin_lines(FILE *file, size_t most);

/* Reads the next line that is not blank. A line ends with LF, CR or both; the last one may lack its end. Gives false
   where there is none, the file can't be read or no more may be. */
bool next_text_line(line_reader *r, text_line *line);

#endif
