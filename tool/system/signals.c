#include "signals.h"

#include <errno.h>
#include <fcntl.h>
#include <signal.h>
#include <unistd.h>

static volatile sig_atomic_t stop, reset;
static int ends[2] = {-1, -1};
static bool has_button;

static void on_signal(int number)
{
    int reason = errno;
    if (number == SIGUSR1 && has_button)
        reset = 1;
    else
        stop = 1;
    if (write(ends[1], "", 1) < 0) {
        /* the pipe is full: it is readable already */
    }
    errno = reason;
}

static bool prepare(int fd)
{
    return fcntl(fd, F_SETFL, O_NONBLOCK) == 0 && fcntl(fd, F_SETFD, FD_CLOEXEC) == 0;
}

static bool catch (int number)
{
    struct sigaction old, action = {.sa_handler = on_signal};
    if (sigaction(number, NULL, &old) != 0)
        return false;
    return old.sa_handler == SIG_IGN || sigaction(number, &action, NULL) == 0;
}

bool signals_catch(bool with_button)
{
    static const int numbers[] = {SIGINT,  SIGTERM, SIGHUP,    SIGQUIT, SIGALRM,
                                  SIGUSR1, SIGUSR2, SIGVTALRM, SIGPROF, SIGXCPU};
    static pid_t owner;
    if (owner == getpid())
        return true;
    if (pipe(ends) != 0 || !prepare(ends[0]) || !prepare(ends[1]))
        return false;
    owner = getpid();
    has_button = with_button;
    bool caught = true;
    for (size_t i = 0; caught && i < sizeof numbers / sizeof *numbers; i++)
        caught = catch (numbers[i]);
    return caught;
}

int signals_fd(void)
{
    return ends[0];
}

/* Takes the bytes that the handler left. */
static void drain(void)
{
    char bytes[64];
    while (ends[0] >= 0 && read(ends[0], bytes, sizeof bytes) > 0) {
    }
}

bool signals_stop(void)
{
    return stop;
}

bool signals_reset(void)
{
    if (!reset)
        return false;
    reset = 0;
    drain();
    return true;
}

bool signals_pending(void)
{
    return stop || reset;
}
