/* How a payload's ranges lie against their memories. */
#ifndef MET_RANGES_H
#define MET_RANGES_H

#include "met.h"

/* Of the payload that the model's work buffer holds. */
void meet_ranges(meeting *met, const desk *d);

#endif
