#include "trial.h"

#include <inttypes.h>
#include <stdarg.h>
#include <stdio.h>
#include <string.h>

void differ(trial *t, const char *format, ...)
{
    if (differs(t))
        return;
    va_list list;
    va_start(list, format);
    vsnprintf(t->difference, sizeof t->difference, format, list);
    va_end(list);
    tell(t, "DIFFERS: %s\n", t->difference);
}

void tell(trial *t, const char *format, ...)
{
    if (!t->telling)
        return;
    va_list list;
    va_start(list, format);
    vprintf(format, list);
    va_end(list);
}

void tell_bytes(trial *t, const char *name, const uint8_t *bytes, size_t count)
{
    enum { MOST = 400 };
    if (!t->telling)
        return;
    printf("%s (%zu):", name, count);
    for (size_t i = 0; i < count && i < MOST; i++)
        printf(" %02X", bytes[i]);
    printf(count > MOST ? " ..\n" : "\n");
}

bool differs(const trial *t)
{
    return t->difference[0] != 0;
}

void same_number(trial *t, const char *what, uint64_t library, uint64_t model)
{
    if (library != model)
        differ(t, "%s: library %" PRIu64 ", model %" PRIu64, what, library, model);
}

void same_bytes(trial *t, const char *what, const uint8_t *library, const uint8_t *model, size_t count)
{
    if (count == 0 || memcmp(library, model, count) == 0)
        return;
    size_t i = 0;
    while (library[i] == model[i])
        i++;
    differ(t, "%s, byte %zu: library %02X, model %02X", what, i, library[i], model[i]);
}
