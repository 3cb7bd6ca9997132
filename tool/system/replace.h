/* New content in a file's place, so that at any moment the old or the new file is there. */
#ifndef REPLACE_H
#define REPLACE_H

#include <stdbool.h>
#include <stddef.h>
#include <stdint.h>
#include <sys/stat.h>

/* Writes the new content beside the file, on the disk too, and then gives it the file's name. Where there is an old
   file, the new one takes its owner and mode. Gives the descriptor of the new file, which is locked; or -1, and the old
   file stays, unless only the folder could not be made durable. On failure errno says why; EBUSY: another program does
   the same. */
int replace_file(const char *path, const struct stat *old, const uint8_t *bytes, size_t length);

/* Whether new content may be written beside the file. On failure errno says why. */
bool can_replace(const char *path);

#endif
