/* The boot frame: 01, the shortest length field of its kind, the code, 06. */
#include "model.h"

#include <string.h>

model_framed model_frame(uint32_t kind, const uint8_t *code, size_t length, uint8_t *out, size_t room)
{
    size_t most = kind == KIND_P ? 65535 : 131071;
    if (length == 0)
        return (model_framed){41, 0};
    if (length > most)
        return (model_framed){42, 0};
    uint8_t head[5] = {0x01};
    size_t head_length = length > 65535 ? 5 : 3;
    size_t field = length > 65535 ? length - 65536 : length;
    head[head_length - 2] = (uint8_t)(field % 256);
    head[head_length - 1] = (uint8_t)(field / 256);
    if (room < head_length + length + 1)
        return (model_framed){43, 0};
    memcpy(out, head, head_length);
    memcpy(out + head_length, code, length);
    out[head_length + length] = ACK;
    return (model_framed){0, head_length + length + 1};
}
