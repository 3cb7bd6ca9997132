/* What a program here claims of the library. */
#ifndef HOLD_H
#define HOLD_H

#include <stdio.h>

static int wrong;

static void hold(int holds, const char *what)
{
    if (!holds) {
        fprintf(stderr, "claims: not so: %s\n", what);
        wrong = 1;
    }
}

#define HOLD(what) hold((what), #what)

#endif
