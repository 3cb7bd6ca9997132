/* Plain text in files. */
#ifndef PLAIN_TEXT_H
#define PLAIN_TEXT_H

#include "files.h"

bool is_blank(uint8_t character);

/* Whether bytes may be text: none of them is a control character, but for blanks and line ends. */
bool is_text(content bytes);

/* How many bytes at the front of a text are the mark that it is UTF-8: MARK, or 0. */
enum { MARK = 3 };
size_t mark_length(content bytes);

#endif
