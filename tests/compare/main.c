/* Compares the library with the model on many cases, each made from its seed. */
#define _DEFAULT_SOURCE
#include "clock.h"
#include "figures.h"
#include "seen.h"
#include "shrink.h"
#include "trial.h"

#include <inttypes.h>
#include <setjmp.h>
#include <signal.h>
#include <stdio.h>
#include <stdlib.h>
#include <string.h>
#include <sys/time.h>

static const case_kind kinds[] = {
    {"version", 8, version_case},
    {"tray", 4, tray_case},
    {"select", 6, select_case},
    {"offer", 4, offer_case},
    {"command", 4, command_case},
    {"image header", 4, image_header_case},
    {"product header", 1, product_header_case},
    {"frame", 4, frame_case},
    {"ROM stream", 8, rom_stream_case},
    {"uartboot stream", 28, uartboot_stream_case},
    {"ROM record", 18, rom_record_case},
    {"uartboot record", 36, uartboot_record_case},
    {"host stream", 14, host_stream_case},
    {"host record", 18, host_record_case},
    {"joined line", 6, joined_case},
    {"length", 2, length_case},
    {"recording", 16, recording_case},
};

enum { KINDS = sizeof kinds / sizeof *kinds, SHRINK_SECONDS = 20, WATCH_SECONDS = 10 };

static uint64_t cases_of[KINDS], all_calls;

/* A case that touches memory that was not lent, or doesn't end, is left here. */
static sigjmp_buf left;
static volatile sig_atomic_t running, left_by;
static volatile uint64_t serial, current_seed;

static void on_fault(int signal)
{
    if (!running)
        _Exit(3);
    left_by = signal;
    siglongjmp(left, 1);
}

static void on_tick(int signal)
{
    static uint64_t last;
    if (running && serial == last)
        on_fault(signal);
    last = serial;
}

/* A sanitizer ends the program; its report is followed by the seed. */
__attribute__((weak)) void __sanitizer_set_death_callback(void (*callback)(void));

static void on_death(void)
{
    fprintf(stderr, "in the case of seed %" PRIu64 "; again: tests/run seed %" PRIu64 "\n", current_seed, current_seed);
}

static void watch(void)
{
    struct sigaction fault = {.sa_handler = on_fault, .sa_flags = SA_NODEFER}, tick = {.sa_handler = on_tick};
    struct itimerval every = {{WATCH_SECONDS, 0}, {WATCH_SECONDS, 0}};
    static const int faults[] = {SIGSEGV, SIGBUS, SIGILL, SIGFPE};
    for (size_t i = 0; i < sizeof faults / sizeof *faults; i++)
        sigaction(faults[i], &fault, NULL);
    if (__sanitizer_set_death_callback)
        __sanitizer_set_death_callback(on_death);
    sigaction(SIGALRM, &tick, NULL);
    setitimer(ITIMER_REAL, &every, NULL);
}

static bool figures_hold(void)
{
    choices c = {.given = true};
    trial t = {.c = &c};
    run_figures(&t);
    if (differs(&t))
        printf("%s\n", t.difference);
    return !differs(&t);
}

static void run_kind(trial *t)
{
    uint32_t total = 0, kind = 0;
    for (int k = 0; k < KINDS; k++)
        total += kinds[k].weight;
    for (uint32_t at = pick(t->c, total); at >= kinds[kind].weight; kind++)
        at -= kinds[kind].weight;
    tell(t, "case: %s\n", kinds[kind].name);
    cases_of[kind]++;
    kinds[kind].run(t);
}

static const char *fault_name(int signal)
{
    if (signal == SIGALRM)
        return "a call does not end";
    return signal == SIGSEGV || signal == SIGBUS ? "memory that was not lent was touched" : "an instruction failed";
}

/* Runs the case of a list of choices. Gives whether it differs. */
static bool run_case(choices *c, bool telling)
{
    static trial t;
    t = (trial){.c = c, .telling = telling};
    serial++;
    if (sigsetjmp(left, 1) == 0) {
        running = 1;
        run_kind(&t);
    } else {
        differ(&t, "%s", fault_name(left_by));
    }
    running = 0;
    all_calls += t.calls;
    return differs(&t);
}

static bool still_differs(choices *c)
{
    return run_case(c, false);
}

/* Runs the case of a seed; where it differs, shows a shorter one that differs too. */
static bool run_seed(uint64_t seed, bool telling)
{
    static choices c;
    current_seed = seed;
    choices_from_seed(&c, seed);
    if (!run_case(&c, telling))
        return true;
    printf("the case of seed %" PRIu64 " differs (%zu choices); shortened:\n", seed, c.count);
    fflush(stdout);
    shrink(&c, still_differs, SHRINK_SECONDS);
    c.at = 0;
    run_case(&c, true);
    printf("(%zu choices) again: tests/run seed %" PRIu64 "\n", c.count, seed);
    return false;
}

static void report(uint64_t first, uint64_t count, double seconds)
{
    printf("%" PRIu64 " cases, seeds from %" PRIu64 ", %" PRIu64 " calls, %.0f s:", count, first, all_calls, seconds);
    for (int k = 0; k < KINDS; k++)
        printf(" %s %" PRIu64 "%s", kinds[k].name, cases_of[k], k + 1 < KINDS ? "," : "\n");
}

static int run_many(uint64_t first, uint64_t count, double seconds)
{
    double start = seconds_now();
    uint64_t done = 0;
    printf("cases from seed %" PRIu64 " on\n", first);
    fflush(stdout);
    while (done < count && (seconds == 0 || seconds_now() - start < seconds)) {
        if (!run_seed(first + done, false))
            return 1;
        done++;
    }
    report(first, done, seconds_now() - start);
    return all_seen() ? 0 : 1;
}

int main(int argc, char **argv)
{
    if (!figures_hold())
        return 1;
    seen_anew();
    watch();
    if (argc == 3 && strcmp(argv[1], "seed") == 0)
        return run_seed(strtoull(argv[2], NULL, 10), true) ? 0 : 1;
    if (argc == 4 && strcmp(argv[1], "cases") == 0)
        return run_many(strtoull(argv[2], NULL, 10), strtoull(argv[3], NULL, 10), 0);
    if (argc == 4 && strcmp(argv[1], "seconds") == 0)
        return run_many(strtoull(argv[2], NULL, 10), UINT64_MAX, strtod(argv[3], NULL));
    fprintf(stderr, "compare cases FIRST COUNT | seconds FIRST SECONDS | seed SEED\n");
    return 2;
}
