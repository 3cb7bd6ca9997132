#include "outlet.h"

#include "files.h"

#include <errno.h>
#include <limits.h>
#include <poll.h>
#include <unistd.h>

/* As many bytes as may be written without waiting, if there is room for any. */
enum { PIECE = _POSIX_PIPE_BUF };

static bool has_room(void)
{
    struct pollfd out = {.fd = STDOUT_FILENO, .events = POLLOUT};
    return poll(&out, 1, 0) > 0;
}

/* Writes what can be written now. */
static bool write_ready(outlet *o)
{
    while (o->written < o->all.length && has_room()) {
        size_t left = o->all.length - o->written;
        ssize_t count = write(STDOUT_FILENO, o->all.chars + o->written, left < PIECE ? left : PIECE);
        if (count < 0 && errno != EINTR)
            return false;
        o->written += count > 0 ? (size_t)count : 0;
    }
    return true;
}

bool outlet_write(outlet *o, const char *bytes, size_t count)
{
    if (!o->later)
        return write_until_stopped(STDOUT_FILENO, bytes, count);
    text_add_bytes(&o->all, bytes, count);
    return write_ready(o);
}

bool outlet_end(outlet *o)
{
    size_t left = o->all.length - o->written;
    bool whole = left == 0 || write_until_stopped(STDOUT_FILENO, o->all.chars + o->written, left);
    int reason = errno;
    text_free(&o->all);
    o->written = 0;
    errno = reason;
    return whole;
}
