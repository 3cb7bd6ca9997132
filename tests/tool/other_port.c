/* Loaded before the C library: the demo's commands go to DEVICE. The demo opens its monitor's port twice, first for the
   boot ROM, then for uartboot. */
#define _GNU_SOURCE
#include <dlfcn.h>
#include <fcntl.h>
#include <stdarg.h>
#include <stdlib.h>
#include <string.h>

int open(const char *name, int flags, ...)
{
    static int opened;
    int (*next)(const char *, int, ...) = (int (*)(const char *, int, ...))dlsym(RTLD_NEXT, "open");
    va_list args;
    va_start(args, flags);
    mode_t mode = flags & O_CREAT ? va_arg(args, mode_t) : 0;
    va_end(args);
    if (strcmp(name, "monitor") == 0 && opened++ > 0)
        name = getenv("DEVICE");
    return next(name, flags, mode);
}
