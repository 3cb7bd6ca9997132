/* A tray: version fields one after the other, and for each of them its rank and its number in a row. */
#include "model.h"

#include <string.h>

uint32_t model_rank_tray(const uint8_t *fields, size_t length, uint32_t *ranks, size_t room)
{
    if (length % VERSION_FIELD != 0 || length > MOST_TRAY * VERSION_FIELD)
        return 64;
    if (room < length / VERSION_FIELD * TRAY_ENTRY)
        return 65;
    for (size_t done = 0; done < length; done += VERSION_FIELD) {
        model_ranked given = model_rank(fields + done, VERSION_FIELD);
        memcpy(ranks, given.rank, sizeof given.rank);
        ranks[RANK_NUMBERS] = given.number;
        ranks += TRAY_ENTRY;
    }
    return 0;
}
