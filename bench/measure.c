/* Timing: library and plain C take turns, so that both meet the same noise; the median of many turns counts. */
#include "measure.h"

#include "plain.h"

#include <stdlib.h>
#include <time.h>

enum { WARM_UP = 10, TURNS = 301 };

static double now(void)
{
    struct timespec t;
    clock_gettime(CLOCK_MONOTONIC, &t);
    return (double)t.tv_sec * 1e9 + (double)t.tv_nsec;
}

/* Gives plain C the means of a worker. */
static void equip(worker w)
{
    static plain_means usual;
    if (usual.copy == NULL)
        usual = plain;
    plain = usual;
    if (w == TABLE) {
        plain.crc16 = plain_crc16_table;
        plain.crc32 = plain_crc32_table;
    }
    if (w == ZLIB)
        plain.crc32 = plain_crc32_zlib;
    if (w == LOOP)
        plain.copy = plain_copy_by_loop;
    if (w == CALLS)
        plain.rank_tray = plain_rank_tray_by_calls;
    if (w == SESSION_CALL)
        plain.replay = replay_by_session;
}

static double timed(const subject *s, worker w)
{
    void (*run)(const subject *) = w == LIBRARY ? s->library : s->plain;
    equip(w);
    double start = now();
    run(s);
    return now() - start;
}

int agree(const subject *s, size_t size)
{
    for (unsigned w = PLAIN; w < WORKERS; w++) {
        if (w != PLAIN && !(s->beside & 1u << w))
            continue;
        s->prepare(s, size);
        timed(s, LIBRARY);
        timed(s, (worker)w);
        if (!s->same())
            return 0;
    }
    return 1;
}

static int by_size(const void *a, const void *b)
{
    double x = *(const double *)a, y = *(const double *)b;
    return (x > y) - (x < y);
}

void measure(const subject *s, size_t size, unsigned workers, double median[WORKERS])
{
    static double times[WORKERS][TURNS];
    s->prepare(s, size);
    for (int turn = -WARM_UP; turn < TURNS; turn++) {
        for (unsigned k = 0; k < WORKERS; k++) {
            unsigned w = (k + (unsigned)(turn + WARM_UP)) % WORKERS;
            double took = workers & 1u << w ? timed(s, (worker)w) : 0;
            times[w][turn < 0 ? 0 : turn] = took;
        }
    }
    for (unsigned w = 0; w < WORKERS; w++) {
        qsort(times[w], TURNS, sizeof times[w][0], by_size);
        median[w] = times[w][TURNS / 2];
    }
}
