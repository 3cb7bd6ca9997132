/* Memories that a player has kept beside a recording. */
#ifndef BESIDE_H
#define BESIDE_H

#include "replay.h"

/* Whether some are there that are not what was stated: then adds which options state them. */
bool add_beside(text *t, const replay *r);

#endif
