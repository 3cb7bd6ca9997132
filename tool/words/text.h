/* Text that grows. */
#ifndef TEXT_H
#define TEXT_H

#include <stdarg.h>
#include <stddef.h>
#include <stdint.h>

typedef struct {
    char *chars; /* ends with a zero byte once something was added, if only "" */
    size_t length, room;
} text;

#if defined(__GNUC__)
#define LIKE_PRINTF(words, first) __attribute__((format(printf, words, first)))
#else
#define LIKE_PRINTF(words, first)
#endif

void text_add(text *t, const char *format, ...) LIKE_PRINTF(2, 3);
void text_add_args(text *t, const char *format, va_list args);
void text_add_bytes(text *t, const char *bytes, size_t count);

/* A string in quotes as JSON has it; control characters, and bytes that are not UTF-8 text, are escaped. */
void text_add_json(text *t, const char *bytes, size_t count);

/* A name and a string that follow others in an object: ,"name":"word"; null where the word is NULL. */
void text_add_json_word(text *t, const char *name, const char *word);

/* A path as a shell's command line has it: in quotes where that is needed, and never like an option. */
void text_add_path(text *t, const char *path);

/* How many bytes the character has that begins a text in UTF-8; 0 where none does. */
size_t text_character(const uint8_t *bytes, size_t count);

/* Bytes in hexadecimal, with `between` between them. */
void text_add_hex(text *t, const uint8_t *bytes, size_t count, const char *between);

void text_free(text *t);

#endif
