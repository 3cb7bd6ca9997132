/* Time that only goes forward. */
#ifndef CLOCK_H
#define CLOCK_H

/* In milliseconds, from a moment before the program began. */
long long milliseconds_now(void);

#endif
