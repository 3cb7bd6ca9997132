#include "replace.h"

#include "files.h"
#include "lock.h"
#include "paths.h"
#include "text.h"

#include <errno.h>
#include <fcntl.h>
#include <stdio.h>
#include <stdlib.h>
#include <string.h>
#include <sys/stat.h>
#include <unistd.h>

/* The name beside a file under which its new content is written. */
static char *new_name(const char *path)
{
    text t = {0};
    const char *name = name_of(path);
    text_add_bytes(&t, path, (size_t)(name - path));
    text_add(&t, ".%s.undalisho-new", name);
    return t.chars;
}

/* Makes sure that the name in the folder is on the disk. Some file systems, and folders that may not be read, can't do
   it; then there is nothing to be done. */
static bool sync_folder(const char *path)
{
    char *folder = folder_of(path);
    int fd = open(folder, O_RDONLY | O_CLOEXEC);
    bool synced = fd >= 0 ? fsync(fd) == 0 || errno == EINVAL || errno == ENOTSUP : errno == EACCES;
    int reason = errno;
    if (fd >= 0)
        close(fd);
    free(folder);
    errno = reason;
    return synced;
}

/* Gives the new file the old one's owner, where that is allowed, and its mode. */
static bool take_after(int fd, const struct stat *old)
{
    if (fchown(fd, old->st_uid, old->st_gid) != 0) {
        /* then it belongs to whoever has written it */
    }
    return fchmod(fd, old->st_mode & 07777) == 0;
}

/* Writes the new content under its own name, on the disk too. Until it is whole, only its owner may read it where
   others could not read the old one either. Gives the descriptor, or -1. */
static int write_new(const char *name, const struct stat *old, const uint8_t *bytes, size_t length)
{
    mode_t mode = old ? old->st_mode & 0600 : 0666;
    int fd = open_locked(name, O_RDWR | O_CREAT | O_NOFOLLOW, mode);
    if (fd < 0)
        return -1;
    bool written = (!old || fchmod(fd, mode) == 0) && ftruncate(fd, 0) == 0 && write_all(fd, bytes, length) &&
                   (!old || take_after(fd, old)) && fsync(fd) == 0;
    if (written)
        return fd;
    int reason = errno;
    unlink(name);
    close(fd);
    errno = reason;
    return -1;
}

bool can_replace(const char *path)
{
    char *folder = folder_of(path), *name = new_name(path);
    errno = 0;
    long most = pathconf(folder, _PC_NAME_MAX);
    bool fits = most < 0 || strlen(name_of(name)) <= (size_t)most;
    if (!fits)
        errno = ENAMETOOLONG;
    bool can = fits && access(folder, W_OK | X_OK) == 0;
    int reason = errno;
    free(folder);
    free(name);
    errno = reason;
    return can;
}

int replace_file(const char *path, const struct stat *old, const uint8_t *bytes, size_t length)
{
    char *name = new_name(path);
    int fd = write_new(name, old, bytes, length);
    bool named = fd >= 0 && rename(name, path) == 0;
    bool whole = named && sync_folder(path);
    int reason = errno;
    if (fd >= 0 && !named)
        unlink(name);
    if (fd >= 0 && !whole)
        close(fd);
    free(name);
    errno = reason;
    return whole ? fd : -1;
}
