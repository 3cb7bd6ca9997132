/* Version texts and images, mostly well formed. */
#ifndef TEXTS_H
#define TEXTS_H

#include "model.h"
#include "trial.h"

/* A version field, and some bytes after it. */
void make_version(trial *t, uint8_t *field, size_t room);

/* An image with `code` bytes of code, header included, at the front of `bytes`, which has room for it. */
void make_image(trial *t, uint8_t *bytes, uint32_t code);
/* Changes one thing in an image's header or code, which may make it invalid. `room` is how far its memory reaches. */
void damage_image(trial *t, uint8_t *bytes, size_t room);

#endif
