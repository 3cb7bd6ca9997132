/* A serial port that only one program uses. */
#ifndef CLAIM_H
#define CLAIM_H

#include <stdbool.h>

typedef struct {
    char *lock_file; /* NULL: none */
    bool exclusive;  /* the terminal is closed to others */
} claim;

/* Takes an open port for this program alone: locks it, closes it to others, and where that is the custom, in a folder
   /var/lock, leaves a lock file there with the number of this process. On failure errno says why; EBUSY: another
   program uses it. */
bool claim_port(claim *c, int fd, const char *path);

void claim_drop(claim *c, int fd);

#endif
