/* What a recording that was replayed is like, noted as seen. */
#ifndef MET_RECORDING_H
#define MET_RECORDING_H

#include "lead.h"

/* `d` is as the replay has left it, `r` the answer of library and model. */
void met_recording(const setting *s, const desk *d, const stream *file, const model_replayed *r);

#endif
