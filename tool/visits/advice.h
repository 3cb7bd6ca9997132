/* What to do about a difference. */
#ifndef ADVICE_H
#define ADVICE_H

#include "found.h"
#include "text.h"

void add_advice(text *t, const found_reply *f);

#endif
