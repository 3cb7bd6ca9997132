/* Version fields and their texts. */
#ifndef FIELD_H
#define FIELD_H

#include "undalisho.h"

/* Writes the field of a text. One that no field can hold, since it is too long or has a byte 00 in it, gets an empty
   field, which is malformed as well: it is never cut down to another version. */
void make_field(uint8_t field[UND_VERSION_FIELD], const void *text, size_t length);

/* How many bytes the text of a field has: those before the first 00. */
size_t field_text_length(const uint8_t *field);

#endif
