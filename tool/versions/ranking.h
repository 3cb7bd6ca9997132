/* What the library says of a tray: the well-formed versions with the highest first, and which ones are malformed. */
#ifndef RANKING_H
#define RANKING_H

#include "tray.h"
#include "undalisho.h"

typedef struct {
    const uint32_t *rank;
    size_t index; /* in the tray, from 0 */
    size_t place; /* 1 is the highest; equal versions share theirs */
    size_t equal; /* the index of the first version that is equal: its own, or that of one before it */
} ranked_version;

typedef struct {
    uint32_t number;        /* of the call; the rest is 0 where that is refused */
    uint32_t *ranks;        /* an entry of the library for each version */
    ranked_version *sorted; /* equal ones in the order in which they came */
    size_t count;           /* of these */
    size_t *malformed;      /* the indexes of the others */
    size_t malformed_count;
} ranking;

ranking rank_tray(const tray *t);

#endif
