/* A host's commands, and the buffers for their answers. */
#ifndef REQUESTS_H
#define REQUESTS_H

#include "desk.h"

/* Mostly a command of the table, with a buffer that is long enough, both filled. The payload stays until the next
   one is drawn. */
void draw_request(trial *t, setting *s);

/* Notes what is right or wrong about command and buffer, and which causes come together. */
void note_request(const setting *s);

#endif
