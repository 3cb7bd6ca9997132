/* A symbolic link to a pseudo-terminal, so that a host finds it under a name that stays. */
#ifndef LINK_H
#define LINK_H

#include <stdbool.h>

/* Points a link at the pseudo-terminal. An older link to one, or to nothing, is replaced; any other file stays. On
   failure errno says why. */
bool link_make(const char *path, const char *target);

/* Removes the link, unless another program has taken it over. */
void link_remove(const char *path, const char *target);

#endif
