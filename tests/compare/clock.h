#ifndef CLOCK_H
#define CLOCK_H

/* Seconds, from some fixed moment on. */
double seconds_now(void);

#endif
