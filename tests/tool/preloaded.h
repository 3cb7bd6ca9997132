/* For libraries that are loaded before the C library: the functions behind theirs, and what they tell a test. */
#ifndef PRELOADED_H
#define PRELOADED_H

#define _GNU_SOURCE
#include <dlfcn.h>
#include <errno.h>
#include <signal.h>
#include <stdio.h>
#include <stdlib.h>
#include <string.h>
#include <unistd.h>

#define REAL(type, name, ...) ((type(*)(__VA_ARGS__))dlsym(RTLD_NEXT, name))

/* Kills the program (HOW=kill), or gives -1 and an error (HOW is its number). */
static inline int halt(void)
{
    const char *how = getenv("HOW");
    if (strcmp(how, "kill") == 0)
        for (;;)
            kill(getpid(), SIGKILL);
    errno = atoi(how);
    return -1;
}

/* The path of an open file. */
static inline const char *name_of(int fd)
{
    static char name[4096];
    char link[64];
    snprintf(link, sizeof link, "/proc/self/fd/%d", fd);
    ssize_t length = readlink(link, name, sizeof name - 1);
    name[length > 0 ? length : 0] = 0;
    return name;
}

static inline int ends_with(const char *name, const char *end)
{
    size_t all = strlen(name), count = strlen(end);
    return all >= count && strcmp(name + all - count, end) == 0;
}

/* Tells the file TRACE what is done. */
static inline void note(const char *what)
{
    FILE *trace = getenv("TRACE") ? fopen(getenv("TRACE"), "a") : NULL;
    if (trace) {
        fprintf(trace, "%s\n", what);
        fclose(trace);
    }
}

#endif
