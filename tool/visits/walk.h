/* A recorded visit, played to a session to see what each byte of reply means. The verdict is the library's. */
#ifndef WALK_H
#define WALK_H

#include "recorded.h"
#include "session.h"

enum { COMMAND_HEADER = 4 };

typedef struct {
    const session *lent;            /* with the memories as the visit found them */
    session session;                /* the memories are its own */
    stream host;                    /* what it has not taken yet */
    part before;                    /* the part of the flow before the one that it is in */
    size_t in_part;                 /* bytes of reply in this part so far */
    size_t commands;                /* that have begun */
    uint8_t header[COMMAND_HEADER]; /* of the last one, as far as it has come */
    size_t header_length;
    content payload; /* likewise */
    bool acked;      /* the host has sent 06 after the payload's CRC-16 */
} walk;

void walk_begin(walk *w, const session *memories, content file);

/* Goes on until `count` bytes of reply were sent and the next is due, all bytes of the host are taken, or code runs.
   Keeps the reply unless `reply` is NULL. Gives how many bytes were sent. */
size_t walk_on(walk *w, uint8_t *reply, size_t count);

phase walk_phase(const walk *w);

void walk_end(walk *w);

#endif
