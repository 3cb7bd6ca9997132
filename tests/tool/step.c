/* Loaded before the C library: at STEP of the replacement of a file, the program is killed (HOW=kill) or the call fails
   (HOW is the number of the error). The steps, in order: open, empty, half, fsync, rename, renamed. The file TRACE is
   told what is done: write, fsync, rename, and folder for the folder's fsync; reply for what is sent to a
   pseudo-terminal. */
#include "preloaded.h"

#include <fcntl.h>
#include <stdarg.h>

static int is_step(const char *step)
{
    const char *wanted = getenv("STEP");
    return wanted && strcmp(wanted, step) == 0;
}

static int is_new_name(const char *name)
{
    return ends_with(name, ".undalisho-new");
}

static int is_new(int fd)
{
    return is_new_name(name_of(fd));
}

int open(const char *name, int flags, ...)
{
    va_list args;
    va_start(args, flags);
    mode_t mode = flags & O_CREAT ? va_arg(args, mode_t) : 0;
    va_end(args);
    if (is_step("open") && is_new_name(name))
        return halt();
    return REAL(int, "open", const char *, int, ...)(name, flags, mode);
}

ssize_t write(int fd, const void *bytes, size_t count)
{
    ssize_t (*real)(int, const void *, size_t) = REAL(ssize_t, "write", int, const void *, size_t);
    static int halves;
    if (is_new(fd))
        note("write");
    else if (strstr(name_of(fd), "ptmx"))
        note("reply");
    if (is_step("empty") && is_new(fd))
        return halt();
    if (!is_step("half") || !is_new(fd))
        return real(fd, bytes, count);
    return halves++ ? halt() : real(fd, bytes, count / 2);
}

int fsync(int fd)
{
    note(is_new(fd) ? "fsync" : "folder");
    if (is_step("fsync") && is_new(fd))
        return halt();
    return REAL(int, "fsync", int)(fd);
}

int rename(const char *from, const char *to)
{
    note("rename");
    if (is_step("rename") && is_new_name(from))
        return halt();
    int done = REAL(int, "rename", const char *, const char *)(from, to);
    return is_step("renamed") && is_new_name(from) ? halt() : done;
}
