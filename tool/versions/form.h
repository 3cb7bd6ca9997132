/* What form a list of versions has, where it was read as another. */
#ifndef FORM_H
#define FORM_H

#include "tray.h"

/* What to do next about a list that is refused, or of which nothing is good, if its beginning looks as if it was read
   in a wrong way; else NULL. */
const char *other_form(const tray *t);

#endif
