#include "lock.h"

#include <errno.h>
#include <fcntl.h>
#include <sys/stat.h>
#include <unistd.h>

static bool lock_whole(int fd)
{
    struct flock whole = {.l_type = F_WRLCK, .l_whence = SEEK_SET};
    if (fcntl(fd, F_SETLK, &whole) == 0)
        return true;
    if (errno == EAGAIN || errno == EACCES)
        errno = EBUSY;
    return false;
}

bool is_named(int fd, const char *path)
{
    struct stat open_one, named;
    return fstat(fd, &open_one) == 0 && stat(path, &named) == 0 && open_one.st_ino == named.st_ino &&
           open_one.st_dev == named.st_dev;
}

int open_locked(const char *path, int flags, mode_t mode)
{
    for (;;) {
        int fd = open(path, flags | O_CLOEXEC, mode);
        if (fd < 0)
            return -1;
        bool locked = lock_whole(fd);
        /* another program may have replaced it before it was locked */
        if (locked && is_named(fd, path))
            return fd;
        int reason = errno;
        close(fd);
        errno = reason;
        if (!locked)
            return -1;
    }
}
