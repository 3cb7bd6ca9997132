/* What plain C copies, sums, ranks trays and replays with. */
#include "plain.h"

#include <string.h>

plain_means plain = {memcpy, plain_crc16_bitwise, plain_crc32_bitwise, plain_rank_tray, plain_replay};

/* One byte after the other, as a loop is written without a word on overlap. */
void *plain_copy_by_loop(void *to, const void *from, size_t count)
{
    uint8_t *t = to;
    const uint8_t *f = from;
    for (size_t i = 0; i < count; i++)
        t[i] = f[i];
    return to;
}
