/* What a recording begins with, and the names of the files beside it. */
#ifndef RECORDING_H
#define RECORDING_H

#include "text.h"
#include "undalisho.h"

#include <stdbool.h>
#include <stdint.h>

/* Its mark and the version. */
extern const uint8_t recording_head[UND_RECORDING_HEAD];

/* Whether a recording may take a regular file's place: there is none, or it is empty or an older recording. Else errno
   is EEXIST, or says why it cannot be read. */
bool may_record_in(const char *path);

/* The path of the file that has the RAM, work buffer or flash, as it was at the session's beginning. */
text recorded_ram(const char *recording);
text recorded_work(const char *recording);
text recorded_flash(const char *recording);

#endif
