#include "files.h"

#include "lock.h"
#include "memory.h"
#include "paths.h"
#include "replace.h"
#include "signals.h"

#include <errno.h>
#include <fcntl.h>
#include <limits.h>
#include <poll.h>
#include <stdlib.h>
#include <string.h>
#include <sys/stat.h>
#include <unistd.h>

/* PATIENCE is in milliseconds. */
enum { PIECE = 1 << 16, PATIENCE = 100 };

bool read_open(int fd, size_t most, content *c)
{
    size_t room = PIECE;
    *c = (content){memory_of(room), 0};
    for (;;) {
        size_t left = most + 1 - c->length;
        if (c->length == room) {
            uint8_t *more = realloc(c->bytes, room *= 2);
            if (!more)
                break;
            c->bytes = more;
        }
        if (left > room - c->length)
            left = room - c->length;
        ssize_t count = left ? read(fd, c->bytes + c->length, left) : 0;
        if (count == 0)
            return true;
        if (count < 0 && errno != EINTR)
            break;
        c->length += count > 0 ? (size_t)count : 0;
    }
    free(c->bytes);
    *c = (content){NULL, 0};
    return false;
}

bool read_file(const char *path, size_t most, content *c)
{
    int fd = open(path, O_RDONLY | O_CLOEXEC);
    if (fd < 0)
        return false;
    bool whole = read_open(fd, most, c);
    int reason = errno;
    close(fd);
    errno = reason;
    return whole;
}

/* Writes all bytes in pieces of at most `most`, each after `may_go_on` says so. */
static bool write_pieces(int fd, const uint8_t *at, size_t length, size_t most, bool (*may_go_on)(int fd))
{
    while (length > 0) {
        if (!may_go_on(fd))
            return false;
        ssize_t count = write(fd, at, length < most ? length : most);
        if (count < 0 && errno != EINTR)
            return false;
        if (count > 0) {
            at += count;
            length -= (size_t)count;
        }
    }
    return true;
}

static bool always(int fd)
{
    (void)fd;
    return true;
}

bool write_all(int fd, const void *bytes, size_t length)
{
    return write_pieces(fd, bytes, length, SIZE_MAX, always);
}

/* Waits until the descriptor has room; once the end is asked for, not much longer. */
static bool has_room(int fd)
{
    struct pollfd waited = {.fd = fd, .events = POLLOUT};
    bool stop = false;
    while (poll(&waited, 1, PATIENCE) <= 0) {
        if (stop)
            return false;
        stop = signals_stop();
    }
    return true;
}

bool write_until_stopped(int fd, const void *bytes, size_t length)
{
    return write_pieces(fd, bytes, length, _POSIX_PIPE_BUF, has_room);
}

static bool write_in_place(const char *path, const uint8_t *bytes, size_t length)
{
    int fd = open(path, O_WRONLY | O_CLOEXEC);
    if (fd < 0)
        return false;
    bool whole = write_all(fd, bytes, length);
    int reason = errno;
    bool closed = close(fd) == 0;
    if (!whole)
        errno = reason;
    return whole && closed;
}

bool is_regular(const char *path)
{
    struct stat there;
    return stat(path, &there) == 0 && S_ISREG(there.st_mode);
}

static bool is_same_inode(const char *a, const char *b)
{
    struct stat one, other;
    return stat(a, &one) == 0 && stat(b, &other) == 0 && one.st_ino == other.st_ino && one.st_dev == other.st_dev;
}

/* Two files that are not there yet are the same if they get one name in one folder. */
bool is_same_file(const char *a, const char *b)
{
    if (is_same_inode(a, b))
        return true;
    if (access(a, F_OK) == 0 || access(b, F_OK) == 0 || strcmp(name_of(a), name_of(b)) != 0)
        return false;
    char *one = folder_of(a), *other = folder_of(b);
    bool same = is_same_inode(one, other);
    free(one);
    free(other);
    return same;
}

char *place_of(const char *path)
{
    struct stat there;
    bool exists = stat(path, &there) == 0;
    if (exists && S_ISREG(there.st_mode))
        return realpath(path, NULL);
    if (!exists && lstat(path, &there) != 0)
        return *path ? strdup(path) : NULL;
    errno = exists ? EINVAL : ENOENT;
    return NULL;
}

static bool find_place(file_place *p, const char *path)
{
    p->path = place_of(path);
    p->exists = p->path && stat(p->path, &p->old) == 0;
    return p->path;
}

void free_place(file_place *p)
{
    int reason = errno;
    free(p->path);
    p->path = NULL;
    errno = reason;
}

bool clear_place(file_place *p, const char *path)
{
    bool cleared = find_place(p, path) && (!p->exists || unlink(p->path) == 0);
    if (!cleared)
        free_place(p);
    return cleared;
}

int fill_place(file_place *p, const uint8_t *bytes, size_t length)
{
    int fd = replace_file(p->path, p->exists ? &p->old : NULL, bytes, length);
    free_place(p);
    return fd;
}

int start_file(const char *path, const uint8_t *bytes, size_t length)
{
    file_place p;
    return find_place(&p, path) ? fill_place(&p, bytes, length) : -1;
}

/* A file that may not be written to may be replaced all the same. */
static bool is_locked(const char *place)
{
    int fd = open_locked(place, O_RDWR, 0);
    bool locked = fd < 0 && errno == EBUSY;
    if (fd >= 0)
        close(fd);
    return locked;
}

bool can_start_file(const char *path)
{
    char *place = place_of(path);
    bool can = place && !is_locked(place) && can_replace(place);
    int reason = errno;
    free(place);
    errno = reason;
    return can;
}

bool write_file(const char *path, const uint8_t *bytes, size_t length)
{
    struct stat there;
    if (stat(path, &there) == 0 && !S_ISREG(there.st_mode))
        return write_in_place(path, bytes, length);
    int fd = start_file(path, bytes, length);
    if (fd >= 0)
        close(fd);
    return fd >= 0;
}
