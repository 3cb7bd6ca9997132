/* Files that only one program may have open. */
#ifndef LOCK_H
#define LOCK_H

#include <stdbool.h>
#include <sys/types.h>

/* Opens the file that the path means, as open does, and locks it whole. Gives the descriptor, or -1. On failure errno
   says why; EBUSY: another program has locked it. */
int open_locked(const char *path, int flags, mode_t mode);

/* Whether the path means the open file, and not another one by now. */
bool is_named(int fd, const char *path);

#endif
