/* Ranking version fields, one by one and as a tray: one to four numbers each, one of sixteen is malformed. */
#include "plain.h"
#include "subjects.h"

#include <stdio.h>
#include <string.h>

enum { MOST = UND_TRAY_MAX, FIELD = UND_VERSION_FIELD };

/* What a tray gives. */
typedef struct {
    uint32_t number, entries[MOST][UND_TRAY_ENTRY];
} ranked_tray;

static uint8_t fields[MOST][FIELD];
static und_ranked ours[MOST], theirs[MOST];
static ranked_tray our_tray, their_tray;
static size_t count;

static void put_version(uint8_t *field)
{
    char text[4 * TEXT_NUMBERS + 1] = "";
    int length = 0;
    for (uint32_t left = some_number() % TEXT_NUMBERS + 1; left > 0; left--)
        length +=
            snprintf(text + length, sizeof text - (size_t)length, "%u%s", some_number() % 1000, left > 1 ? "." : "");
    memset(field, 0, FIELD);
    memcpy(field, text, (size_t)length < FIELD ? (size_t)length : FIELD);
    if (some_number() % 16 == 0)
        field[some_number() % FIELD] = 'x';
}

void version_prepare(const subject *s, size_t size)
{
    (void)s;
    count = size;
    for (size_t i = 0; i < size; i++)
        put_version(fields[i]);
}

void version_library(const subject *s)
{
    (void)s;
    for (size_t i = 0; i < count; i++)
        ours[i] = und_rank(fields[i], FIELD);
}

void version_plain(const subject *s)
{
    (void)s;
    for (size_t i = 0; i < count; i++)
        theirs[i] = plain_rank(fields[i], FIELD);
}

int version_same(void)
{
    return memcmp(ours, theirs, count * sizeof ours[0]) == 0;
}

void tray_library(const subject *s)
{
    (void)s;
    our_tray.number = und_rank_tray(fields[0], count * FIELD, our_tray.entries[0], count * UND_TRAY_ENTRY);
}

void tray_plain(const subject *s)
{
    (void)s;
    their_tray.number = plain.rank_tray(fields[0], count * FIELD, their_tray.entries[0], count * UND_TRAY_ENTRY);
}

int tray_same(void)
{
    return our_tray.number == 0 && their_tray.number == 0 &&
           memcmp(our_tray.entries, their_tray.entries, count * sizeof our_tray.entries[0]) == 0;
}
