/* What is odd about a flash, in words: the image that starts has the lower version; product header and images share
   bytes. Nothing is said of a flash whose product header is not good. */
#ifndef WARNINGS_H
#define WARNINGS_H

#include "text.h"
#include "view.h"

/* A line each on standard output. */
void print_warnings(const flash_view *v);

/* The same as JSON's name and list: ,"warnings":[..] */
void add_warnings_json(text *t, const flash_view *v);

#endif
