/* Bytes between host and chip, with a clock beside them. Each routine gives DONE, or the exit code after it has said
   what ends the load. */
#ifndef TALK_H
#define TALK_H

#include "loading.h"

/* Waits for a byte until a moment; `came` says whether one did. */
int talk_hear(loading *l, long long until, uint8_t *byte, bool *came);

/* Sends the header, the first `length` bytes of the frame. */
int talk_header(loading *l, size_t length);

/* Sends the code, the next `length` bytes of the frame. The chip has nothing to say meanwhile; if it does, the load is
   over. */
int talk_code(loading *l, size_t length);

/* Sends the byte that starts the code, the last of the frame. */
int talk_go(loading *l);

#endif
