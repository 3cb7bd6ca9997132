/* Contents of memories, files and data. */
#ifndef FILL_H
#define FILL_H

#include "choices.h"

/* Fills bytes with zeros, with FF, or from a seed that is one choice. */
void fill(choices *c, uint8_t *bytes, size_t count);
void put_little(uint8_t *bytes, int count, uint64_t number);
/* A number at or near one of the edges, or anywhere up to the last. */
uint64_t near_edges(choices *c, const uint64_t *edges, size_t count);
/* Room for what has a length: exact, up to 15 longer, one short, or anything up to it. */
size_t room_near(choices *c, size_t length);

#endif
