/* Makes a case that differs shorter. */
#ifndef SHRINK_H
#define SHRINK_H

#include "choices.h"

/* Says whether the case of a list still differs. */
typedef bool (*differs_with)(choices *c);

/* Replaces the list by a shorter or smaller one that still differs. */
void shrink(choices *c, differs_with still, double seconds);

#endif
