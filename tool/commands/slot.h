/* The command line of those that show a flash. */
#ifndef SLOT_H
#define SLOT_H

#include "view.h"

/* Reads FLASH [--header OFFSET] [--json] and the flash. Gives DONE, or the exit code after it has said what is
   wrong. */
int read_view(int count, char **words, flash_view *v);

#endif
