/* Headers that are made: each is written as a row of numbers, field by field, with how many bytes a field has. */
#include "model.h"

#include <string.h>

typedef struct {
    uint64_t number;
    int width;
} field;

/* Writes fields, each from its highest byte down, and gives where the last one ends. */
static uint8_t *put_fields(uint8_t *at, const field *fields, size_t count)
{
    for (const field *f = fields; f < fields + count; f++) {
        for (int place = f->width - 1; place >= 0; place--)
            at[place] = (uint8_t)(f->number >> (8 * place));
        at += f->width;
    }
    return at;
}

model_image_header model_make_image_header(const uint8_t *code, size_t length, uint8_t id, const uint8_t *version,
                                           size_t version_length, uint32_t time)
{
    model_image_header made = {0, {0}};
    if (length == 0)
        made.number = 41;
    else if (length > MOST_CODE)
        made.number = 42;
    else
        made.number = model_rank(version, version_length).number;
    if (made.number)
        return made;
    field front[] = {{0xAA5170, 3}, {id, 1}, {length, 4}, {model_crc32(code, length), 4}}, back[] = {{time, 4}, {0, 1}};
    uint8_t *at = put_fields(made.bytes, front, sizeof front / sizeof *front);
    memcpy(at, version, VERSION_FIELD);
    put_fields(at + VERSION_FIELD, back, sizeof back / sizeof *back);
    return made;
}

model_product_header model_make_product_header(uint32_t first, uint32_t second)
{
    model_product_header made;
    field fields[] = {{0x5270, 2}, {0, 2}, {first, 4}, {second, 4}};
    put_fields(made.bytes, fields, sizeof fields / sizeof *fields);
    return made;
}
