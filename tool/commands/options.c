#include "options.h"

#include "say.h"
#include "speeds.h"
#include "undalisho.h"

#include <errno.h>
#include <stdarg.h>
#include <stdio.h>
#include <stdlib.h>
#include <string.h>

const command *current_command;

/* Whether --json is among the options, even where they are wrong. */
static bool wants_json;

int misuse(const char *format, ...)
{
    text words = {0}, next = {0};
    va_list args;
    va_start(args, format);
    text_add_args(&words, format, args);
    va_end(args);
    text_add(&next, "'undalisho help%s%s' says more", current_command ? " " : "",
             current_command ? current_command->name : "");
    fprintf(stderr, "undalisho: %s\n", words.chars);
    if (current_command)
        fprintf(stderr, "usage: undalisho %s %s\n", current_command->name, current_command->usage);
    fprintf(stderr, "  next: %s\n", next.chars);
    if (wants_json)
        print_saying(&(saying){MISUSED, 0, words.chars, next.chars});
    text_free(&words);
    text_free(&next);
    return MISUSED;
}

static bool has_json(int count, char **words)
{
    for (int i = 0; i < count && strcmp(words[i], "--") != 0; i++)
        if (strcmp(words[i], "--json") == 0)
            return true;
    return false;
}

/* A number in decimal, or in hexadecimal after 0x. */
static bool read_number(const char *word, unsigned long *number)
{
    char *end;
    if (*word < '0' || *word > '9')
        return false;
    bool hexadecimal = word[0] == '0' && (word[1] == 'x' || word[1] == 'X');
    errno = 0;
    *number = strtoul(word, &end, hexadecimal ? 16 : 10);
    return errno == 0 && *end == 0 && end != word;
}

/* Whether a word is this option, as "--ram", "--ram=VALUE" or "-oVALUE"; `value` is then NULL or the value. */
static bool is_option(const char *word, const char *name, const char **value)
{
    size_t length = strlen(name);
    if (strncmp(word, name, length) != 0)
        return false;
    if (word[length] == 0)
        *value = NULL;
    else
        *value = name[1] != '-' ? word + length : word[length] == '=' ? word + length + 1 : NULL;
    return word[length] == 0 || *value;
}

static const option *find_option(const option *options, const char *word, const char **value)
{
    for (; options->name; options++)
        if (is_option(word, options->name, value))
            return options;
    return NULL;
}

bool read_option_number(const char *name, const char *word, unsigned long *number)
{
    if (read_number(word, number))
        return true;
    misuse("%s wants a number (decimal, or hexadecimal after 0x), not '%s'", name, word);
    return false;
}

static bool set_option(const option *o, const char *value)
{
    if (o->kind == NUMBER)
        return read_option_number(o->name, value, o->value);
    *(const char **)o->value = value;
    return true;
}

/* Reads the option at words[*at]; a value that is a word of its own is passed over too. */
static bool read_option(int count, char **words, int *at, const option *options)
{
    const char *value = NULL;
    const option *o = find_option(options, words[*at], &value);
    if (!o) {
        misuse("there is no option '%s'", words[*at]);
        return false;
    }
    if (o->kind == FLAG) {
        if (value)
            misuse("%s has no value", o->name);
        else
            *(bool *)o->value = true;
        return !value;
    }
    if (!value && *at + 1 == count) {
        misuse("%s wants a value", o->name);
        return false;
    }
    return set_option(o, value ? value : words[++*at]);
}

int read_options(int count, char **words, const option *options, int least, int most)
{
    int plain = 0;
    bool reading = true;
    wants_json = has_json(count, words);
    for (int at = 0; at < count; at++) {
        bool is_word = !reading || words[at][0] != '-' || words[at][1] == 0;
        if (is_word)
            words[plain++] = words[at];
        else if (strcmp(words[at], "--") == 0)
            reading = false;
        else if (!read_option(count, words, &at, options))
            return -1;
    }
    if (plain >= least && plain <= most)
        return plain;
    if (plain > most)
        misuse("'%s' is one word too many", words[most]);
    else
        misuse("something is missing");
    return -1;
}

bool is_baud(unsigned long baud)
{
    char known[128];
    if (has_speed(baud, known))
        return true;
    misuse("--baud is one of%s, not %lu", known, baud);
    return false;
}

bool read_kind(const char *word, uint32_t *kind)
{
    if (!word) {
        misuse("--kind is missing: p for DA1453x, e for DA1458x");
        return false;
    }
    if (strcmp(word, "p") != 0 && strcmp(word, "e") != 0) {
        misuse("--kind is p (DA1453x) or e (DA1458x), not '%s'", word);
        return false;
    }
    *kind = *word == 'p' ? UND_KIND_P : UND_KIND_E;
    return true;
}
