#include "say.h"

#include "words.h"

#include <errno.h>
#include <stdarg.h>
#include <stdio.h>
#include <string.h>

bool say_json;
void (*say_also)(const saying *s);

const char *exit_word(int code)
{
    static const char *const words[] = {
        [DONE] = "running", [REFUSED] = "refused",   [MISUSED] = "misused", [FAILED] = "failed",   [SILENT] = "silent",
        [NOISE] = "noise",  [UARTBOOT] = "uartboot", [BUSY] = "busy",       [STOPPED] = "stopped",
    };
    return words[code];
}

void add_saying(text *t, const saying *s)
{
    text_add(t, "\"words\":");
    text_add_json(t, s->words, strlen(s->words));
    text_add(t, ",\"next\":");
    text_add_json(t, s->next, strlen(s->next));
    text_add(t, ",\"exit\":%d,\"number\":%u", s->code, s->number);
}

void print_saying(const saying *s)
{
    text t = {0};
    text_add(&t, "{\"event\":\"%s\",", exit_word(s->code));
    add_saying(&t, s);
    printf("%s}\n", t.chars);
    text_free(&t);
}

static int tell(const saying *s)
{
    fflush(stdout);
    fprintf(stderr, "undalisho: %s\n  next: %s\n", s->words, s->next);
    if (say_also)
        say_also(s);
    else if (say_json)
        print_saying(s);
    return s->code;
}

static void refuse_args(uint32_t number, const char *next, const char *about, va_list args)
{
    text t = {0};
    text_add(&t, "refused, number %u: %s (", number, meaning_of(number)->what);
    text_add_args(&t, about, args);
    text_add(&t, ")");
    tell(&(saying){REFUSED, number, t.chars, next});
    text_free(&t);
}

int refuse(uint32_t number, const char *about, ...)
{
    va_list args;
    va_start(args, about);
    refuse_args(number, meaning_of(number)->next, about, args);
    va_end(args);
    return REFUSED;
}

int refuse_with(uint32_t number, const char *next, const char *about, ...)
{
    va_list args;
    va_start(args, about);
    refuse_args(number, next, about, args);
    va_end(args);
    return REFUSED;
}

static void tell_args(int code, const char *reason, const char *next, const char *what, va_list args)
{
    text t = {0};
    text_add_args(&t, what, args);
    text_add(&t, "%s%s", *reason ? ": " : "", reason);
    tell(&(saying){code, 0, t.chars, next});
    text_free(&t);
}

int end_with(int code, const char *next, const char *what, ...)
{
    va_list args;
    va_start(args, what);
    tell_args(code, "", next, what, args);
    va_end(args);
    return code;
}

int fail_errno(const char *next, const char *what, ...)
{
    va_list args;
    va_start(args, what);
    tell_args(FAILED, strerror(errno), next, what, args);
    va_end(args);
    return FAILED;
}

int finish(int code)
{
    errno = 0;
    if (fflush(stdout) == 0 && !ferror(stdout))
        return code;
    const char *reason = errno ? strerror(errno) : "an earlier write failed";
    fprintf(stderr, "undalisho: standard output could not be written: %s\n", reason);
    fprintf(stderr, "  next: see where it goes to, and whether there is room\n");
    return FAILED;
}
