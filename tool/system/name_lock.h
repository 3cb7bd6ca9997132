/* A name that only one program may use, whatever file has it: files that are replaced lose their own locks. */
#ifndef NAME_LOCK_H
#define NAME_LOCK_H

#include <stdbool.h>

typedef struct {
    char *path; /* of a file beside the name, which is locked; NULL: none is held */
    int fd;
} name_lock;

/* Locks the name of a regular file, there or not yet there. On failure errno says why; EBUSY: another program has
   locked it. */
bool name_lock_take(name_lock *l, const char *path);

/* Whether another program has locked it. Not to be asked of a name that this one has locked: that would give it up. */
bool is_name_locked(const char *path);

void name_lock_release(name_lock *l);

#endif
