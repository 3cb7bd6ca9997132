#include "text.h"

#include "memory.h"

#include <stdarg.h>
#include <stdbool.h>
#include <stdio.h>
#include <stdlib.h>
#include <string.h>

static void make_room(text *t, size_t more)
{
    if (t->room - t->length > more)
        return;
    size_t room = 2 * (t->length + more) + 64;
    char *chars = memory_of(room);
    if (t->length)
        memcpy(chars, t->chars, t->length);
    free(t->chars);
    t->chars = chars;
    t->room = room;
}

void text_add_bytes(text *t, const char *bytes, size_t count)
{
    make_room(t, count);
    memcpy(t->chars + t->length, bytes, count);
    t->length += count;
    t->chars[t->length] = 0;
}

void text_add_args(text *t, const char *format, va_list args)
{
    va_list again;
    va_copy(again, args);
    int count = vsnprintf(NULL, 0, format, args);
    make_room(t, count > 0 ? (size_t)count : 0);
    if (count > 0)
        vsnprintf(t->chars + t->length, (size_t)count + 1, format, again);
    t->length += count > 0 ? (size_t)count : 0;
    va_end(again);
}

void text_add(text *t, const char *format, ...)
{
    va_list args;
    va_start(args, format);
    text_add_args(t, format, args);
    va_end(args);
}

size_t text_character(const uint8_t *bytes, size_t count)
{
    size_t length = bytes[0] < 0x80   ? 1
                    : bytes[0] < 0xC2 ? 0
                    : bytes[0] < 0xE0 ? 2
                    : bytes[0] < 0xF0 ? 3
                    : bytes[0] < 0xF5 ? 4
                                      : 0;
    if (length > count)
        return 0;
    for (size_t i = 1; i < length; i++)
        if ((bytes[i] & 0xC0) != 0x80)
            return 0;
    bool outside = (bytes[0] == 0xE0 && bytes[1] < 0xA0) || (bytes[0] == 0xED && bytes[1] > 0x9F) ||
                   (bytes[0] == 0xF0 && bytes[1] < 0x90) || (bytes[0] == 0xF4 && bytes[1] > 0x8F);
    return length > 1 && outside ? 0 : length;
}

void text_add_json(text *t, const char *bytes, size_t count)
{
    text_add_bytes(t, "\"", 1);
    for (size_t i = 0; i < count;) {
        unsigned char c = (unsigned char)bytes[i];
        size_t length = text_character((const uint8_t *)bytes + i, count - i);
        bool control = c < 0x20 || c == 0x7F || (length == 2 && c == 0xC2 && (unsigned char)bytes[i + 1] < 0xA0);
        if (c == '"' || c == '\\')
            text_add(t, "\\%c", c);
        else if (length == 0 || control)
            text_add(t, "\\u%04x", length == 2 ? (unsigned char)bytes[i + 1] : c);
        else
            text_add_bytes(t, bytes + i, length);
        i += length ? length : 1;
    }
    text_add_bytes(t, "\"", 1);
}

void text_add_json_word(text *t, const char *name, const char *word)
{
    text_add(t, ",\"%s\":", name);
    if (word)
        text_add_json(t, word, strlen(word));
    else
        text_add(t, "null");
}

void text_add_path(text *t, const char *path)
{
    static const char plain[] = "abcdefghijklmnopqrstuvwxyzABCDEFGHIJKLMNOPQRSTUVWXYZ0123456789-_./,:+@%=";
    text_add(t, "%s", path[0] == '-' ? "./" : "");
    if (path[0] && path[strspn(path, plain)] == 0) {
        text_add(t, "%s", path);
        return;
    }
    text_add(t, "'");
    for (; *path; path++) {
        bool quote = *path == '\'';
        text_add_bytes(t, quote ? "'\\''" : path, quote ? 4 : 1);
    }
    text_add(t, "'");
}

void text_add_hex(text *t, const uint8_t *bytes, size_t count, const char *between)
{
    for (size_t i = 0; i < count; i++)
        text_add(t, "%s%02X", i ? between : "", bytes[i]);
}

void text_free(text *t)
{
    free(t->chars);
    *t = (text){NULL, 0, 0};
}
