#include "plain_text.h"

#include <string.h>

bool is_blank(uint8_t character)
{
    return character == ' ' || (character >= '\t' && character <= '\r');
}

bool is_text(content bytes)
{
    size_t at = 0;
    while (at < bytes.length && (is_blank(bytes.bytes[at]) || (bytes.bytes[at] >= ' ' && bytes.bytes[at] != 0x7F)))
        at++;
    return at == bytes.length;
}

size_t mark_length(content bytes)
{
    static const uint8_t mark[MARK] = {0xEF, 0xBB, 0xBF};
    return bytes.length >= MARK && memcmp(bytes.bytes, mark, MARK) == 0 ? MARK : 0;
}
