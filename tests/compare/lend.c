#define _DEFAULT_SOURCE
#include "lend.h"

#include <stdio.h>
#include <stdlib.h>
#include <string.h>
#include <sys/mman.h>

enum { PAGE = 4096, WATCHED = 64, MARK = 0xA5 };

void shelf_build(shelf *s, size_t capacity)
{
    size_t size = (capacity + WATCHED + PAGE - 1) / PAGE * PAGE;
    uint8_t *area = mmap(NULL, size + 2 * PAGE, PROT_NONE, MAP_PRIVATE | MAP_ANONYMOUS, -1, 0);
    if (area == MAP_FAILED || mprotect(area + PAGE, size, PROT_READ | PROT_WRITE) != 0) {
        perror("memory to lend");
        exit(2);
    }
    s->first = area + PAGE;
    s->end = s->first + size;
    s->lent = s->first;
    s->length = 0;
}

/* The watched bytes before or after what is lent: the other side has the untouchable page. */
static uint8_t *watched(const shelf *s)
{
    return s->lent == s->first ? s->lent + s->length : s->lent - WATCHED;
}

uint8_t *shelf_lend(shelf *s, size_t length, bool at_end)
{
    if (length + WATCHED > (size_t)(s->end - s->first)) {
        fprintf(stderr, "a shelf is too short for %zu bytes\n", length);
        exit(2);
    }
    s->lent = at_end ? s->end - length : s->first;
    s->length = length;
    memset(watched(s), MARK, WATCHED);
    return s->lent;
}

bool shelf_intact(const shelf *s)
{
    const uint8_t *beside = watched(s);
    for (int i = 0; i < WATCHED; i++)
        if (beside[i] != MARK)
            return false;
    return true;
}
