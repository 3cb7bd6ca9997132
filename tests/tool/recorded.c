/* Loaded before the C library: the write to a recording (*.blg) that would go past its byte CUT ends there; then the
   program is killed or the next write fails, as HOW says. Nothing is taken back from it if STUCK is set. When a file
   gets a name that ends with RESET, the program is sent SIGUSR1. After CHANGES names that files got or lost, the next
   change halts it, as HOW says. The file TRACE is told what is done: kept for a file
   that gets its name, recorded and reply with how many bytes are appended to the recording, and written to a
   pseudo-terminal. */
#include "preloaded.h"

#include <fcntl.h>
#include <sys/stat.h>

static int is_recording(int fd)
{
    return ends_with(name_of(fd), ".blg");
}

static void note_count(const char *what, size_t count)
{
    char words[64];
    snprintf(words, sizeof words, "%s %zu", what, count);
    note(words);
}

/* How many of these bytes may be written. */
static size_t before_cut(int fd, size_t count)
{
    struct stat file;
    const char *cut = getenv("CUT");
    if (!cut || fstat(fd, &file) != 0)
        return count;
    size_t room = (size_t)(atol(cut) - (long)file.st_size);
    return count < room ? count : room;
}

ssize_t write(int fd, const void *bytes, size_t count)
{
    ssize_t (*real)(int, const void *, size_t) = REAL(ssize_t, "write", int, const void *, size_t);
    if (strstr(name_of(fd), "ptmx"))
        note_count("reply", count);
    if (!is_recording(fd))
        return real(fd, bytes, count);
    size_t most = before_cut(fd, count);
    ssize_t written = most > 0 ? real(fd, bytes, most) : halt();
    note_count(fcntl(fd, F_GETFL) & O_APPEND ? "recorded" : "overwritten", most);
    return most < count && strcmp(getenv("HOW"), "kill") == 0 ? halt() : written;
}

int ftruncate(int fd, off_t length)
{
    if (getenv("STUCK") && is_recording(fd)) {
        errno = EIO;
        return -1;
    }
    return REAL(int, "ftruncate", int, off_t)(fd, length);
}

static int may_change(void)
{
    static long changes;
    const char *most = getenv("CHANGES");
    return !most || changes++ != atol(most) || halt() == 0;
}

int unlink(const char *name)
{
    return may_change() ? REAL(int, "unlink", const char *)(name) : -1;
}

int rename(const char *from, const char *to)
{
    const char *reset = getenv("RESET");
    note("kept");
    if (reset && ends_with(to, reset))
        raise(SIGUSR1);
    return may_change() ? REAL(int, "rename", const char *, const char *)(from, to) : -1;
}
