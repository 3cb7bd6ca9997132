#include "name_lock.h"

#include "files.h"
#include "lock.h"
#include "paths.h"
#include "text.h"

#include <errno.h>
#include <fcntl.h>
#include <stdlib.h>
#include <unistd.h>

/* It is as long as the name under which new content is written: where that one fits, so does this. */
static char *lock_path(const char *path)
{
    text t = {0};
    char *place = place_of(path);
    if (place) {
        const char *name = name_of(place);
        text_add_bytes(&t, place, (size_t)(name - place));
        text_add(&t, ".%s.undalisho-use", name);
    }
    free(place);
    return t.chars;
}

bool name_lock_take(name_lock *l, const char *path)
{
    *l = (name_lock){lock_path(path), -1};
    if (l->path)
        l->fd = open_locked(l->path, O_RDWR | O_CREAT | O_NOFOLLOW, 0666);
    if (l->fd >= 0)
        return true;
    int reason = errno;
    free(l->path);
    l->path = NULL;
    errno = reason;
    return false;
}

bool is_name_locked(const char *path)
{
    char *beside = lock_path(path);
    int fd = beside ? open_locked(beside, O_RDWR | O_NOFOLLOW, 0) : -1;
    bool locked = beside && fd < 0 && errno == EBUSY;
    if (fd >= 0)
        close(fd);
    free(beside);
    return locked;
}

/* The file goes while it is still locked: who has opened it sees that it has lost its name. */
void name_lock_release(name_lock *l)
{
    if (!l->path)
        return;
    if (is_named(l->fd, l->path))
        unlink(l->path);
    close(l->fd);
    free(l->path);
    *l = (name_lock){NULL, -1};
}
