/* The code that Intel HEX text makes. */
#ifndef HEX_H
#define HEX_H

#include "code.h"

/* What gaps are filled with. */
enum { FILL = 0xFF };

/* Gives DONE, or the exit code after it has said what is wrong. Code that no RAM has room for is refused. */
int read_hex(const char *path, content file, code_file *c);

#endif
