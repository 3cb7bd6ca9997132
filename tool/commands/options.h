/* The command line. */
#ifndef OPTIONS_H
#define OPTIONS_H

#include "text.h"

#include <stdbool.h>
#include <stdint.h>

typedef enum { FLAG, WORD, NUMBER } option_kind;

/* An option of a command: "--ram", and where its value goes. A flag has none. */
typedef struct {
    const char *name;
    option_kind kind;
    void *value; /* of a flag bool, of a word const char *, of a number unsigned long */
} option;

/* A command: its name, what follows it on its usage line, what it does in a line, and the routine. */
typedef struct {
    const char *name, *usage, *summary;
    int (*run)(int count, char **words);
} command;

/* Reads words: options go where their table says, the others are moved to the front in order. Gives how many of these
   there are, which must be from `least` to `most`, or -1 after it has said what is wrong. The table ends with a name
   NULL. */
int read_options(int count, char **words, const option *options, int least, int most);

/* What is wrong with the command line, and how the command is used. Gives the exit code. */
int misuse(const char *format, ...) LIKE_PRINTF(1, 2);

/* The command that is being run, for its usage line. */
extern const command *current_command;

/* Reads an option's number; says so where it is none. */
bool read_option_number(const char *name, const char *word, unsigned long *number);

/* Whether a port can have this baud rate; says so if not. */
bool is_baud(unsigned long baud);

/* Reads "p" or "e" into a kind of receiver. */
bool read_kind(const char *word, uint32_t *kind);

#endif
