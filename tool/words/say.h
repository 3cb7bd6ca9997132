/* What the program says when it can't do what it was asked: what is wrong, and what to do next. Each gives its exit
   code. */
#ifndef SAY_H
#define SAY_H

#include "exits.h"
#include "text.h"

#include <stdbool.h>
#include <stdint.h>

/* A refusal of the library. `about` says of what. */
int refuse(uint32_t number, const char *about, ...) LIKE_PRINTF(2, 3);

/* The same, where something else is to be done next than the number says. */
int refuse_with(uint32_t number, const char *next, const char *about, ...) LIKE_PRINTF(3, 4);

/* An ending with this exit code. */
int end_with(int code, const char *next, const char *what, ...) LIKE_PRINTF(3, 4);

/* A refusal of the chip at the other end, or of a file: it has no number. */
#define refuse_unnumbered(...) end_with(REFUSED, __VA_ARGS__)

/* A file or a line that failed; the system's reason is errno. */
int fail_errno(const char *next, const char *what, ...) LIKE_PRINTF(2, 3);

/* The same, where the system has given no reason. */
#define fail(...) end_with(FAILED, __VA_ARGS__)

/* The word for an exit code, as a line's log has it: "running" for DONE. */
const char *exit_word(int code);

/* What is said is written to standard output as JSON too. */
extern bool say_json;

typedef struct {
    int code;
    uint32_t number; /* of a refusal of the library, else 0 */
    const char *words, *next;
} saying;

/* Takes what is said as well, if it is not NULL, and then writes the JSON too. */
extern void (*say_also)(const saying *s);

/* Adds what is said as JSON's names and values, from "words" on. */
void add_saying(text *t, const saying *s);

/* Writes it as a JSON object to standard output. */
void print_saying(const saying *s);

/* Flushes standard output: gives `code`, or FAILED where it could not be written. */
int finish(int code);

#endif
