/* What a host meets: each byte that the flow does not allow, CRCs and lengths, ends. */
#ifndef MET_HOST_H
#define MET_HOST_H

#include "met.h"

/* Before an accepted call whose first byte is this one. */
void meet_host(meeting *met, const desk *d, uint8_t byte);
/* After an accepted call. */
void met_host(const meeting *met, const desk *d);

#endif
