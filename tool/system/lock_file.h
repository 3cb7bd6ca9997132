/* Lock files in /var/lock, by which programs for serial lines keep out of each other's way. */
#ifndef LOCK_FILE_H
#define LOCK_FILE_H

#include <stdbool.h>

typedef enum {
    LOCK_FREE,
    LOCK_LEFT, /* by a process that is gone */
    LOCK_HELD
} lock_state;

/* The lock file of a port, as such programs name it; to be freed. NULL where the path is no device's. */
char *lock_file_name(const char *path);

lock_state lock_file_state(const char *name);

/* Makes the file, with the number of this process in it; one that was left is replaced. On failure errno says why;
   EEXIST: another program has made it just now. */
bool lock_file_make(const char *name);

#endif
