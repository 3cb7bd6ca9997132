#include "lock_file.h"

#include "files.h"
#include "text.h"

#include <errno.h>
#include <fcntl.h>
#include <limits.h>
#include <signal.h>
#include <stdlib.h>
#include <string.h>
#include <unistd.h>

#define LOCKS "/var/lock/"
#define DEVICES "/dev/"

char *lock_file_name(const char *path)
{
    text t = {0};
    char *real = realpath(path, NULL);
    if (real && strncmp(real, DEVICES, strlen(DEVICES)) == 0) {
        text_add(&t, LOCKS "LCK..%s", real + strlen(DEVICES));
        for (char *slash = t.chars + strlen(LOCKS); (slash = strchr(slash, '/'));)
            *slash = '_';
    }
    free(real);
    return t.chars;
}

/* The process that a lock file names, as text or as the bytes of its number; these may look like digits and zeros. */
static long owner_in(const char *words, size_t count)
{
    int number;
    char *end;
    long owner = strtol(words, &end, 10);
    size_t text_length = (size_t)(end - words) + (*end == '\n');
    if (count != sizeof number || (end != words && text_length == count))
        return owner;
    memcpy(&number, words, sizeof number);
    return number;
}

static bool is_alive(long process)
{
    return process > 0 && process <= INT_MAX && process != (long)getpid() &&
           (kill((pid_t)process, 0) == 0 || errno == EPERM);
}

/* One that may not be read may be somebody's. */
lock_state lock_file_state(const char *name)
{
    char words[32] = {0};
    int fd = open(name, O_RDONLY | O_NONBLOCK | O_CLOEXEC);
    if (fd < 0)
        return errno == EACCES ? LOCK_HELD : LOCK_FREE;
    ssize_t count = read(fd, words, sizeof words - 1);
    close(fd);
    return count > 0 && is_alive(owner_in(words, (size_t)count)) ? LOCK_HELD : LOCK_LEFT;
}

static bool write_number(const char *path)
{
    text t = {0};
    int fd = open(path, O_WRONLY | O_CREAT | O_EXCL | O_NOFOLLOW | O_CLOEXEC, 0644);
    if (fd < 0)
        return false;
    text_add(&t, "%10ld\n", (long)getpid());
    bool written = write_all(fd, t.chars, t.length);
    text_free(&t);
    close(fd);
    return written;
}

/* It gets its name once its content is there. */
bool lock_file_make(const char *name)
{
    text other = {0};
    text_add(&other, LOCKS "LTMP..undalisho.%ld", (long)getpid());
    unlink(other.chars);
    if (lock_file_state(name) == LOCK_LEFT)
        unlink(name);
    bool made = write_number(other.chars) && link(other.chars, name) == 0;
    int reason = errno;
    unlink(other.chars);
    text_free(&other);
    errno = reason;
    return made;
}
