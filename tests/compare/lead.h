/* A session, or a host, that is followed while its stream is made. */
#ifndef LEAD_H
#define LEAD_H

#include "desk.h"

typedef struct {
    uint8_t *bytes;
    size_t length, capacity;
} stream;

/* It always has room. Playing writes its record and memories. */
typedef struct {
    trial *t;
    stream *s;
    uint32_t *record;
    const model_request *request; /* a host's */
    const model_memories *memories;
} lead;

void stream_add(stream *s, uint8_t byte);
void stream_add_all(stream *s, const uint8_t *bytes, size_t count);
/* Appends bytes, and shows them to what is followed. */
void play_all(lead *g, const uint8_t *bytes, size_t count);
void play(lead *g, uint32_t byte);
/* Mostly the right byte. */
uint32_t or_other(trial *t, uint32_t right, uint32_t one_in);

#endif
