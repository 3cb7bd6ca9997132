/* What waits to be sent, and the terminal's exclusive mode, are not POSIX's. */
#define _DEFAULT_SOURCE
#include "line.h"

#include "memory.h"
#include "signals.h"
#include "speeds.h"

#include <errno.h>
#include <fcntl.h>
#include <poll.h>
#include <stdio.h>
#include <stdlib.h>
#include <string.h>
#include <sys/ioctl.h>
#include <termios.h>
#include <unistd.h>

/* In milliseconds: how long a host may take to read the last bytes, and how often that is looked at; and how far apart
   adapters, which deliver in packets, may hand on bytes that belong together. */
enum { HOST_READS = 2000, STEP = 10, PACKETS = 5 };

/* Bytes as they come, one by one, with no echo and no meaning; 8-N-1; the modem lines are not looked at. */
static bool make_raw(int fd, unsigned long baud)
{
    struct termios t;
    if (tcgetattr(fd, &t) != 0)
        return false;
    t.c_iflag = IGNBRK;
    t.c_oflag = 0;
    t.c_lflag = 0;
    t.c_cflag = CS8 | CREAD | CLOCAL;
    t.c_cc[VMIN] = 1;
    t.c_cc[VTIME] = 0;
    return set_speed(&t, baud) && tcsetattr(fd, TCSANOW, &t) == 0;
}

static bool give_up(line *l)
{
    int reason = errno;
    line_close(l);
    errno = reason;
    return false;
}

bool line_make(line *l)
{
    *l = (line){.fd = posix_openpt(O_RDWR | O_NOCTTY), .host_end = -1, .baud = USUAL_BAUD};
    if (l->fd < 0 || grantpt(l->fd) != 0 || unlockpt(l->fd) != 0)
        return give_up(l);
    const char *name = ptsname(l->fd);
    l->path = name ? strdup(name) : NULL;
    l->host_end = l->path ? open(l->path, O_RDWR | O_NOCTTY | O_CLOEXEC) : -1;
    if (l->host_end < 0 || !make_raw(l->host_end, l->baud))
        return give_up(l);
    if (fcntl(l->fd, F_SETFL, O_RDWR | O_NONBLOCK) != 0 || fcntl(l->fd, F_SETFD, FD_CLOEXEC) != 0)
        return give_up(l);
    return true;
}

bool line_open(line *l, const char *path, unsigned long baud)
{
    *l = (line){.path = path, .fd = -1, .host_end = -1, .baud = baud};
    return line_reopen(l);
}

static bool keep_settings(line *l)
{
    l->before = memory_of(sizeof *l->before);
    if (tcgetattr(l->fd, l->before) == 0)
        return true;
    free(l->before);
    l->before = NULL;
    return false;
}

static void put_back_settings(line *l)
{
    if (l->before)
        tcsetattr(l->fd, TCSANOW, l->before);
    free(l->before);
    l->before = NULL;
}

bool line_reopen(line *l)
{
    line_close(l);
    l->fd = open(l->path, O_RDWR | O_NOCTTY | O_NONBLOCK | O_CLOEXEC);
    return (l->fd >= 0 && claim_port(&l->claim, l->fd, l->path) && keep_settings(l) && make_raw(l->fd, l->baud)) ||
           give_up(l);
}

void line_close(line *l)
{
    put_back_settings(l);
    claim_drop(&l->claim, l->fd);
    if (l->fd >= 0)
        close(l->fd);
    if (l->host_end >= 0)
        close(l->host_end);
    l->fd = l->host_end = -1;
}

/* Waits until the line may be read or written, or has hung up, or a signal has come. */
static line_event wait_for(line *l, short what, int milliseconds)
{
    struct pollfd waited[] = {{.fd = l->fd, .events = what}, {.fd = signals_fd(), .events = POLLIN}};
    int ready = poll(waited, 2, milliseconds);
    if (ready < 0)
        return errno == EINTR ? LINE_SIGNALLED : LINE_GONE;
    if (ready == 0)
        return LINE_QUIET;
    if (waited[1].revents)
        return LINE_SIGNALLED;
    return waited[0].revents & what ? LINE_OK : LINE_GONE;
}

line_event line_read(line *l, uint8_t *bytes, size_t room, int milliseconds, size_t *count)
{
    *count = 0;
    line_event event = wait_for(l, POLLIN, milliseconds);
    if (event != LINE_OK)
        return event;
    ssize_t taken = read(l->fd, bytes, room);
    if (taken > 0)
        *count = (size_t)taken;
    return taken > 0 || (taken < 0 && (errno == EAGAIN || errno == EINTR)) ? LINE_OK : LINE_GONE;
}

line_event line_write(line *l, const uint8_t *bytes, size_t length, int milliseconds, size_t *count)
{
    *count = 0;
    line_event event = wait_for(l, POLLOUT, milliseconds);
    if (event != LINE_OK)
        return event;
    ssize_t sent = write(l->fd, bytes, length);
    if (sent > 0)
        *count = (size_t)sent;
    return sent >= 0 || errno == EAGAIN || errno == EINTR ? LINE_OK : LINE_GONE;
}

int line_settles(const line *l)
{
    int two_bytes = (int)((2 * BITS_OF_BYTE * 1000 + l->baud - 1) / l->baud);
    return two_bytes > PACKETS ? two_bytes : PACKETS;
}

size_t line_unsent(const line *l)
{
#ifdef TIOCOUTQ
    int count = 0;
    if (ioctl(l->fd, TIOCOUTQ, &count) == 0 && count > 0)
        return (size_t)count;
#endif
    return 0;
}

void line_admit(line *l)
{
    if (l->host_end >= 0)
        ioctl(l->host_end, TIOCNXCL);
}

/* On a pseudo-terminal, where nothing waits on this side, it would take what the other end has not read yet. */
void line_discard(line *l)
{
    if (line_unsent(l) > 0)
        tcflush(l->fd, TCOFLUSH);
}

void line_drain(line *l)
{
    struct pollfd unread = {.fd = l->host_end, .events = POLLIN};
    if (l->host_end < 0) {
        while (tcdrain(l->fd) != 0 && errno == EINTR && !signals_stop()) {
        }
        poll(NULL, 0, line_settles(l));
        return;
    }
    for (int waited = 0; waited < HOST_READS && poll(&unread, 1, 0) > 0; waited += STEP)
        poll(NULL, 0, STEP);
}
