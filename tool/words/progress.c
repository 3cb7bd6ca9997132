#include "progress.h"

#include <stdio.h>

enum { WIDTH = 40 };

void show_progress(size_t done, size_t all)
{
    size_t filled = done * WIDTH / all;
    fprintf(stderr, "\r[");
    for (size_t i = 0; i < WIDTH; i++)
        fputc(i < filled ? '#' : '.', stderr);
    fprintf(stderr, "] %3zu%%  %zu of %zu bytes", done * 100 / all, done, all);
}

void end_progress(bool shown)
{
    if (shown)
        fprintf(stderr, "\n");
}
