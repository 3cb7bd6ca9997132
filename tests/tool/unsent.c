/* Loaded before the C library: as many bytes wait to be sent as the file UNSENT says, as a serial port's driver would
   tell; of a pseudo-terminal the system doesn't know. */
#define _GNU_SOURCE
#include <dlfcn.h>
#include <stdarg.h>
#include <stdio.h>
#include <stdlib.h>
#include <sys/ioctl.h>

static int unsent(void)
{
    int count = 0;
    FILE *file = fopen(getenv("UNSENT"), "r");
    if (!file || fscanf(file, "%d", &count) != 1)
        count = 0;
    if (file)
        fclose(file);
    return count;
}

int ioctl(int fd, unsigned long request, ...)
{
    int (*next)(int, unsigned long, ...) = (int (*)(int, unsigned long, ...))dlsym(RTLD_NEXT, "ioctl");
    va_list args;
    va_start(args, request);
    void *lent = va_arg(args, void *);
    va_end(args);
    if (request == TIOCOUTQ) {
        *(int *)lent = unsent();
        return 0;
    }
    return next(fd, request, lent);
}
