#include "field.h"

#include <string.h>

void make_field(uint8_t field[UND_VERSION_FIELD], const void *text, size_t length)
{
    memset(field, 0, UND_VERSION_FIELD);
    if (length <= UND_VERSION_FIELD && !memchr(text, 0, length))
        memcpy(field, text, length);
}

size_t field_text_length(const uint8_t *field)
{
    const uint8_t *end = memchr(field, 0, UND_VERSION_FIELD);
    return end ? (size_t)(end - field) : UND_VERSION_FIELD;
}
