/* flock and the terminal's exclusive mode are not POSIX's. */
#define _DEFAULT_SOURCE
#include "claim.h"

#include "lock_file.h"

#include <errno.h>
#include <stdlib.h>
#include <sys/file.h>
#include <sys/ioctl.h>
#include <unistd.h>

static bool is_locked(int fd)
{
    return flock(fd, LOCK_EX | LOCK_NB) != 0 && errno == EWOULDBLOCK;
}

/* Whether the terminal is closed to others; root does not notice otherwise. */
static bool is_closed(int fd)
{
    int exclusive = 0;
#ifdef TIOCGEXCL
    if (ioctl(fd, TIOCGEXCL, &exclusive) != 0)
        exclusive = 0;
#endif
    return exclusive != 0;
}

/* Makes the lock file. Where none can be made, there is none, and that is no failure. */
static bool take_lock_file(claim *c, char *name)
{
    bool made = lock_file_make(name), used = !made && errno == EEXIST && lock_file_state(name) == LOCK_HELD;
    c->lock_file = made ? name : NULL;
    if (!made)
        free(name);
    return !used;
}

/* A program that was killed leaves its lock file. A pseudo-terminal that another program holds open then stays closed
   too. */
static bool take(claim *c, int fd, char *name)
{
    lock_state there = name ? lock_file_state(name) : LOCK_FREE;
    if (is_locked(fd) || there == LOCK_HELD || (is_closed(fd) && there != LOCK_LEFT)) {
        free(name);
        return false;
    }
    return !name || take_lock_file(c, name);
}

bool claim_port(claim *c, int fd, const char *path)
{
    *c = (claim){NULL, false};
    if (!isatty(fd))
        return false;
    if (!take(c, fd, lock_file_name(path))) {
        errno = EBUSY;
        return false;
    }
    c->exclusive = ioctl(fd, TIOCEXCL) == 0;
    return true;
}

void claim_drop(claim *c, int fd)
{
    if (c->exclusive)
        ioctl(fd, TIOCNXCL);
    if (c->lock_file)
        unlink(c->lock_file);
    free(c->lock_file);
    *c = (claim){NULL, false};
}
