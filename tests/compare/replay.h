/* A recording that is written, and replayed by the library and by the model. */
#ifndef REPLAY_H
#define REPLAY_H

#include "lead.h"

void write_head(stream *file);
/* At most MOST_ENTRY bytes. */
void write_entry(stream *file, uint8_t kind, const uint8_t *bytes, size_t count);
/* All bytes, in entries that are as long as they may be. */
void write_entries(stream *file, uint8_t kind, const uint8_t *bytes, size_t count);

/* The host's bytes in one call of the library's session, with room for as many replies as it has. Appends them to the
   device's bytes; the memories are then in `after`. */
void play_session(trial *t, const setting *s, const uint8_t *host, size_t length, size_t replies, stream *device,
                  model_memories *after);

/* Whether the library's memories on a desk hold these contents. */
bool has_contents(const desk *d, const model_memories *m);

/* Replays the file on a desk's memories, and compares everything. The answer is the library's. */
model_replayed replay_on(trial *t, desk *d, const uint8_t *file, size_t length);

#endif
