/* Boot frames by kind of receiver. */
#ifndef FRAME_H
#define FRAME_H

#include "files.h"

/* Makes the boot frame of a code, which was read from a path. Gives DONE, or the exit code after it has said what is
   wrong. */
int make_frame(const char *path, content code, uint32_t kind, content *frame);

#endif
