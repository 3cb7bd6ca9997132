/* undalisho demo: a visit to a monitor from beginning to end, with none plugged in. */
#include "commanding.h"
#include "commands.h"
#include "demo_files.h"
#include "exits.h"
#include "files.h"
#include "line.h"
#include "openings.h"
#include "options.h"
#include "say.h"
#include "session.h"
#include "signals.h"
#include "undalisho.h"

#include <errno.h>
#include <poll.h>
#include <signal.h>
#include <stdio.h>
#include <stdlib.h>
#include <sys/stat.h>
#include <sys/wait.h>
#include <unistd.h>

/* How long the monitor may take to appear or to answer; in milliseconds, with how often it is looked for. */
enum { SECONDS = 10, PATIENCE = SECONDS * 1000, STEP = 20 };

/* The demo's files, in a folder of their own. */
static char flash[] = "flash.bin", package[] = "package.bin", port[] = "monitor", log_file[] = "monitor.log";
static char *folder; /* NULL until it is made */
static pid_t monitor;

static const char *const next_step = "see that $TMPDIR, or else /tmp, has room, and that there are pseudo-terminals";

/* Where the end was asked for, that is no failure of the demo's. */
static int fail_demo(const char *what)
{
    return signals_stop() ? DONE : fail(next_step, "%s", what);
}

/* Shows a command as it would be typed. Gives how many words it has. */
static int type(const char *name, char **words, const char *end)
{
    int count = 0;
    printf("\n$ undalisho %s", name);
    for (; words[count]; count++)
        printf(" %s", words[count]);
    printf("%s\n", end);
    fflush(stdout);
    return count;
}

static bool write_and_free(const char *path, content c)
{
    bool written = write_file(path, c.bytes, c.length);
    free(c.bytes);
    return written;
}

static int make_files(void)
{
    const char *temporary = getenv("TMPDIR");
    text name = {0};
    text_add(&name, "%s/undalisho-XXXXXX", temporary && *temporary ? temporary : "/tmp");
    if (!mkdtemp(name.chars) || chdir(name.chars) != 0)
        return fail_errno(next_step, "a folder for the demo's files cannot be made");
    folder = realpath(".", NULL);
    printf("The demo's files are in %s, and its commands are run there.\n", folder);
    bool made = write_and_free(flash, demo_flash()) && write_and_free(package, demo_package());
    return made ? DONE : fail_errno(next_step, "the demo's files cannot be written");
}

static void remove_files(void)
{
    const char *const paths[] = {flash, package, port, log_file};
    if (!folder)
        return;
    for (size_t i = 0; i < sizeof paths / sizeof *paths; i++)
        unlink(paths[i]);
    if (chdir("/") == 0)
        rmdir(folder);
}

static int show_slot(void)
{
    char *words[] = {flash, NULL};
    return run_slot(type("slot", words, ""), words);
}

static int show_map(void)
{
    char *words[] = {flash, NULL};
    return run_map(type("map", words, ""), words);
}

static int show_order(void)
{
    char *words[] = {"1.9", "1.10", NULL};
    return run_order(type("order", words, ""), words);
}

/* Starts the monitor beside this program, and waits until it has said in its log where it is. */
static int start_monitor(void)
{
    struct stat log;
    char *words[] = {"rom",    "--kind", "e",     "--then-uartboot", "--flash", flash,
                     "--link", port,     "--log", log_file,          "--quiet", NULL};
    int count = type("play", words, " &");
    monitor = fork();
    if (monitor < 0)
        return fail_errno(next_step, "the monitor cannot be started");
    if (monitor == 0)
        _exit(finish(run_play(count, words)));
    for (int waited = 0; waited < PATIENCE && !signals_stop(); waited += STEP) {
        if (stat(log_file, &log) == 0 && log.st_size > 0)
            return DONE;
        if (waitpid(monitor, NULL, WNOHANG) == monitor) {
            monitor = 0;
            break;
        }
        poll(NULL, 0, STEP);
    }
    return fail_demo("the monitor does not appear");
}

static int stop_monitor(void)
{
    int status = 0;
    if (monitor <= 0)
        return DONE;
    kill(monitor, SIGTERM);
    while (waitpid(monitor, &status, 0) < 0 && errno == EINTR) {
    }
    monitor = 0;
    return WIFEXITED(status) && WEXITSTATUS(status) == DONE ? DONE : fail_demo("the monitor has failed");
}

static int load_package(void)
{
    char *words[] = {"--kind", "e", "--port", port, package, NULL};
    return run_load(type("load", words, ""), words);
}

/* Takes the rest of the greeting after the last command, so that the monitor is not stopped in the middle of it. */
static int take_greeting(commanding *c)
{
    uint8_t bytes[MOST_GREETING];
    size_t all = session_greeting(UND_KIND_UARTBOOT, bytes), count = 0;
    for (size_t have = c->end - c->at; have < all; have += count)
        if (line_read(&c->line, bytes, all - have, PATIENCE, &count) != LINE_OK)
            return fail_demo("the monitor does not greet again");
    return DONE;
}

static int send_all(commanding *c, uartboot_command *commands, size_t count)
{
    int code = DONE;
    for (size_t i = 0; code == DONE && i < count; i++)
        code = send_command(c, &commands[i]);
    return code == DONE ? take_greeting(c) : code;
}

/* The visit to uartboot, over the monitor's line. */
static int command_monitor(void)
{
    static commanding c = {.seconds = SECONDS, .log = {.fd = -1}};
    uint8_t answer[UND_WORK_MIN];
    content erase = demo_erase(), copy = demo_copy();
    uartboot_command commands[] = {
        {.opcode = UND_OP_VERSION, .answer = {answer, sizeof answer}},
        {.opcode = UND_OP_ERASE, .payload = erase},
        {.opcode = UND_OP_COPY, .payload = copy},
    };
    printf("\n");
    if (!line_open(&c.line, port, USUAL_BAUD))
        return fail_errno(next_step, "the monitor's line cannot be opened");
    int code = send_all(&c, commands, sizeof commands / sizeof *commands);
    line_close(&c.line);
    free(erase.bytes);
    free(copy.bytes);
    return code == DONE ? stop_monitor() : code;
}

static int show_log(void)
{
    content log;
    if (!read_file(log_file, UND_FLASH_MAX, &log))
        return fail_errno(next_step, "the monitor's log cannot be read");
    printf("\n$ cat %s\n", log_file);
    fwrite(log.bytes, 1, log.length, stdout);
    free(log.bytes);
    return DONE;
}

typedef struct {
    const char *headline; /* NULL: the scene before goes on */
    int (*show)(void);
} scene;

static const scene scenes[] = {
    {"A monitor's flash: version 1.9 in slot 1, the older 1.2 in slot 2.", show_slot},
    {NULL, show_map},
    {"No monitor is plugged in: it is played, on a pseudo-terminal.", start_monitor},
    {"The bench loads uartboot through the boot ROM's line, a new image after it.", load_package},
    {"uartboot runs. The bench asks for its version, erases slot 2 and copies the new image there.", command_monitor},
    {"What the monitor saw: who sent which bytes, and what they mean.", show_log},
    {"The new image has version 1.10. Versions are compared number by number:", show_order},
    {"The flash now. Slot 2 has the newer image, and will start.", show_map},
    {NULL, show_slot},
};

int run_demo(int count, char **words)
{
    bool keep = false;
    const option options[] = {{"--keep", FLAG, &keep}, {NULL, FLAG, NULL}};
    if (read_options(count, words, options, 0, 0) < 0)
        return MISUSED;
    int code = catch_signals(false);
    if (code == DONE)
        code = make_files();
    for (size_t i = 0; code == DONE && !signals_stop() && !ferror(stdout) && i < sizeof scenes / sizeof *scenes; i++) {
        if (scenes[i].headline)
            printf("\n== %s\n", scenes[i].headline);
        code = scenes[i].show();
    }
    int stopped = stop_monitor();
    if (!keep)
        remove_files();
    if (signals_stop())
        return end_with(STOPPED, "run it again", "the demo was stopped by the user");
    return code == DONE ? stopped : code;
}
