/* The bench tool: one subcommand for each job. */
#include "commands.h"
#include "exits.h"
#include "options.h"
#include "say.h"
#include "version.h"

#include <fcntl.h>
#include <signal.h>
#include <stdbool.h>
#include <stdio.h>
#include <string.h>

static const command commands[] = {
    {"slot", "FLASH [--header OFFSET] [--json]", "names the slot that will start, both images, the next id", run_slot},
    {"map", "FLASH [--header OFFSET] [--json]", "draws the flash: sectors, header, images", run_map},
    {"order", "A B [--json]", "tells which of two versions is higher", run_order},
    {"tray", "[FILE] [--text] [--json]", "sorts a list of versions, the highest first", run_tray},
    {"offer", "INSTALLED CANDIDATE [-o CODE] [--json]", "takes the image file with the higher version", run_offer},
    {"frame", "--kind p|e CODE -o FRAME [--raw] [--json]", "writes what a host sends to the boot ROM", run_frame},
    {"play",
     "rom --kind p|e [--then-uartboot] [options]\n"
     "       undalisho play uartboot [options]\n"
     "options: --ram BYTES, --flash FILE, --work BYTES, --save-ram FILE, --record FILE,\n"
     "       --port DEVICE --baud N or --link PATH, --label TEXT, --log FILE, --quiet, --json",
     "is the monitor, on a serial port or a pseudo-terminal", run_play},
    {"replay", "FILE [--ram BYTES | --ram-from FILE] [--work BYTES] [--flash FLASH] [--json]",
     "compares a recorded visit with what uartboot answers", run_replay},
    {"load",
     "--kind p|e --port DEVICE CODE [options]\n"
     "options: --raw, --baud N, --wait SECONDS, --label TEXT, --log FILE, --quiet, --json",
     "loads code through the boot ROM's line, and starts it", run_load},
    {"demo", "[--keep]", "shows a whole visit with no monitor plugged in", run_demo},
};

enum { COMMANDS = sizeof commands / sizeof *commands };

static const command *find_command(const char *name)
{
    for (int i = 0; i < COMMANDS; i++)
        if (strcmp(commands[i].name, name) == 0)
            return &commands[i];
    return NULL;
}

static int print_help(const char *name)
{
    const command *c = name ? find_command(name) : NULL;
    if (name && !c)
        return misuse("there is no command '%s'", name);
    if (c) {
        printf("undalisho %s: %s\nusage: undalisho %s %s\nThe man page, undalisho(1), says what each option does.\n",
               c->name, c->summary, c->name, c->usage);
        return DONE;
    }
    printf("undalisho: the bench tool for the serial boot line\n\n");
    for (int i = 0; i < COMMANDS; i++)
        printf("  undalisho %-6s %s\n", commands[i].name, commands[i].summary);
    printf("\n'undalisho help COMMAND' shows a command's options.\n"
           "With no monitor at hand, begin with 'undalisho demo'.\n"
           "Exit codes: 0 done, 1 refused or different, 2 wrong command line, 3 input or output failed;\n"
           "of a line also 4 silent, 5 noise, 6 uartboot runs already, 7 another program uses the port,\n"
           "8 stopped by the user.\n");
    return DONE;
}

static int run(int argc, char **argv)
{
    if (argc < 2)
        return misuse("a command is missing");
    if (strcmp(argv[1], "help") == 0 || strcmp(argv[1], "--help") == 0 || strcmp(argv[1], "-h") == 0)
        return print_help(argc > 2 ? argv[2] : NULL);
    if (strcmp(argv[1], "--version") == 0) {
        printf("undalisho %s\n", VERSION);
        return DONE;
    }
    current_command = find_command(argv[1]);
    if (!current_command)
        return misuse("there is no command '%s'", argv[1]);
    for (int i = 2; i < argc && strcmp(argv[i], "--") != 0; i++)
        if (strcmp(argv[i], "--help") == 0 || strcmp(argv[i], "-h") == 0)
            return print_help(argv[1]);
    return current_command->run(argc - 2, argv + 2);
}

/* A closed descriptor of 0 to 2 would become that of the next file, and what is said would go there. It is opened the
   other way round, so that using it still fails. */
static bool descriptors_are_open(void)
{
    for (int fd = 0; fd <= 2; fd++)
        if (fcntl(fd, F_GETFD) < 0 && open("/dev/null", fd ? O_RDONLY : O_WRONLY) != fd)
            return false;
    return true;
}

int main(int argc, char **argv)
{
    if (!descriptors_are_open())
        return FAILED;
    /* Writing to a closed pipe, or past a file size limit, is an error that is reported and not the program's end. */
    signal(SIGPIPE, SIG_IGN);
    signal(SIGXFSZ, SIG_IGN);
    return finish(run(argc, argv));
}
