/* Whether memories of other lengths explain what is recorded at the place of a difference. */
#ifndef LENGTHS_H
#define LENGTHS_H

#include "found.h"
#include "text.h"

/* Of a header or a payload that the device has accepted, or refused. Where some do, adds which options state them. */
bool add_longer(text *t, const found_reply *f);
bool add_shorter(text *t, const found_reply *f);

#endif
