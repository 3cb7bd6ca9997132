/* The library against plain C: one table, every line measured in this run. */
#include "measure.h"
#include "plain.h"
#include "plain_command.h"
#include "subjects.h"

#include <stdio.h>

#define GOAL 0.9
#define STEEPEST 1.25

#define SESSION session_prepare, session_library, session_plain, session_same
#define HOST host_prepare, host_library, host_plain, host_same

static const subject subjects[] = {
    {"CRC-16", 65535, WITH_TABLE, 0, 0, crc_prepare, crc16_library, crc16_plain, crc_same},
    {"CRC-32", 131072, WITH_TABLE | WITH_ZLIB, 0, 0, crc_prepare, crc32_library, crc32_plain, crc_same},
    {"ROM load", 131071, WITH_LOOP, 0, 0, SESSION},
    {"ROM load, pieces of 64", 131071, WITH_LOOP, 64, 0, SESSION},
    {"Write", 65535, WITH_TABLE, 0, WRITE, SESSION},
    {"Write, pieces of 64", 65535, WITH_TABLE, 64, WRITE, SESSION},
    {"Direct write with verify", 65535, WITH_TABLE, 0, DIRECT_WRITE, SESSION},
    {"Direct write with verify, pieces of 64", 65535, WITH_TABLE, 64, DIRECT_WRITE, SESSION},
    {"Read", 65535, WITH_TABLE, 0, READ, SESSION},
    {"Read, pieces of 64", 65535, WITH_TABLE, 64, READ, SESSION},
    {"Read QSPI", 65535, WITH_TABLE, 0, READ_QSPI, SESSION},
    {"Read QSPI, pieces of 64", 65535, WITH_TABLE, 64, READ_QSPI, SESSION},
    {"Host Write", 65535, WITH_TABLE, 0, WRITE, HOST},
    {"Host Read", 65535, WITH_TABLE, 0, READ, HOST},
    {"Replay of a recording", 1048576, WITH_TABLE | WITH_SESSION_CALL, 0, 0, replay_prepare, replay_library,
     replay_plain, replay_same},
    {"Select of two images", 131072, WITH_TABLE | WITH_ZLIB, 0, 0, slot_prepare, slot_library, slot_plain, slot_same},
    {"Rank of versions", UND_TRAY_MAX, 0, 0, 0, version_prepare, version_library, version_plain, version_same},
    {"Rank of a tray", UND_TRAY_MAX, WITH_CALLS, 0, 0, version_prepare, tray_library, tray_plain, tray_same},
};

enum { SUBJECTS = sizeof subjects / sizeof subjects[0] };

static const char *const names[WORKERS] = {"library",   "plain C",      "table",           "zlib",
                                           "byte loop", "single calls", "one session call"};

static int all_agree(void)
{
    for (int i = 0; i < SUBJECTS; i++) {
        const subject *s = &subjects[i];
        for (size_t size = s->full; size >= s->full / 4; size /= 2) {
            if (agree(s, size))
                continue;
            fprintf(stderr, "%s at %zu: library and plain C differ\n", s->name, size);
            return 0;
        }
    }
    return 1;
}

static void print_beside(const subject *s, const double *median)
{
    const char *between = "";
    for (unsigned w = TABLE; w < WORKERS; w++) {
        if (!(s->beside & 1u << w))
            continue;
        printf("%s%s %.2f", between, names[w], median[w] / median[LIBRARY]);
        between = ", ";
    }
}

/* Prints a subject's line. It says whether it is short of a goal: 1 the ratio, 2 the linear cost. */
static int print_line(const subject *s)
{
    double quarter[WORKERS], half[WORKERS], full[WORKERS];
    measure(s, s->full / 4, 1u << LIBRARY, quarter);
    measure(s, s->full / 2, 1u << LIBRARY, half);
    measure(s, s->full, 1u << LIBRARY | 1u << PLAIN | s->beside, full);
    double ratio = full[PLAIN] / full[LIBRARY];
    double q = quarter[LIBRARY] / (double)(s->full / 4);
    double h = half[LIBRARY] / (double)(s->full / 2);
    double f = full[LIBRARY] / (double)s->full;
    int linear = f <= STEEPEST * q;
    printf("| %s | %zu | %.1f | %.1f | %s%.2f%s | ", s->name, s->full, full[LIBRARY] / 1000, full[PLAIN] / 1000,
           ratio < GOAL ? "**" : "", ratio, ratio < GOAL ? "**" : "");
    print_beside(s, full);
    printf(" | %.3f | %.3f | %.3f | %s |\n", q, h, f, linear ? "linear" : "**steeper**");
    fflush(stdout);
    return (ratio < GOAL) | !linear << 1;
}

static void print_short(const int *verdicts, int goal, const char *text)
{
    const char *between = "";
    printf("\n%s: ", text);
    for (int i = 0; i < SUBJECTS; i++) {
        if (!(verdicts[i] & goal))
            continue;
        printf("%s%s", between, subjects[i].name);
        between = "; ";
    }
    printf("%s.\n", *between == '\0' ? "none" : "");
}

int main(void)
{
    int verdicts[SUBJECTS];
    plain_fill_tables();
    if (!all_agree())
        return 1;
    puts("| What | Size | Library, µs | Plain C, µs | Ratio | Beside it | ns per byte or version, at a quarter | "
         "half | full size | Cost |");
    puts("|---|--:|--:|--:|--:|---|--:|--:|--:|---|");
    for (int i = 0; i < SUBJECTS; i++)
        verdicts[i] = print_line(&subjects[i]);
    print_short(verdicts, 1, "Ratio under the goal of 0.9");
    print_short(verdicts, 2, "Cost per byte at full size above 1.25 times that at a quarter");
    return 0;
}
