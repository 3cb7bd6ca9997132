#include "kept.h"

#include "lock.h"
#include "replace.h"

#include <errno.h>
#include <fcntl.h>
#include <stdlib.h>
#include <sys/stat.h>
#include <unistd.h>

static bool is_plain(const char *path)
{
    bool plain = is_regular(path);
    if (!plain)
        errno = EINVAL;
    return plain;
}

bool kept_open(kept_file *k, const char *path, size_t most, content *c)
{
    k->fd = -1;
    k->path = realpath(path, NULL);
    if (!k->path)
        return false;
    k->fd = open_locked(k->path, O_RDWR, 0);
    if (k->fd >= 0 && is_plain(k->path) && can_replace(k->path) && read_open(k->fd, most, c))
        return true;
    int reason = errno;
    kept_close(k);
    errno = reason;
    return false;
}

bool kept_replace(kept_file *k, const uint8_t *bytes, size_t length)
{
    struct stat there;
    if (fstat(k->fd, &there) != 0)
        return false;
    int fd = replace_file(k->path, &there, bytes, length);
    if (fd < 0)
        return false;
    close(k->fd);
    k->fd = fd;
    return true;
}

void kept_close(kept_file *k)
{
    if (k->fd >= 0)
        close(k->fd);
    free(k->path);
    *k = (kept_file){NULL, -1};
}
