/* Files: read whole, and replaced so that at any moment the old or the new one is there. */
#ifndef FILES_H
#define FILES_H

#include <stdbool.h>
#include <stddef.h>
#include <stdint.h>
#include <sys/stat.h>

typedef struct {
    uint8_t *bytes;
    size_t length;
} content;

/* Reads a file. Of a longer one only the first `most` + 1 bytes. On failure errno says why. */
bool read_file(const char *path, size_t most, content *c);

/* Reads what an open file has from its start on, likewise. */
bool read_open(int fd, size_t most, content *c);

/* Writes a file. A regular one is replaced whole or not at all; a terminal or a pipe is written to. */
bool write_file(const char *path, const uint8_t *bytes, size_t length);

/* Where a regular file is, behind all links, or will be; to be freed. NULL where the path means something else, or a
   link leads nowhere; then errno says why. */
char *place_of(const char *path);

/* Puts a regular file with these bytes in the place of an older one, or where there is none. Gives the descriptor of
   the new one, which is locked, or -1; then errno says why. */
int start_file(const char *path, const uint8_t *bytes, size_t length);

/* The same in two steps: the older file is removed, and later the new one is put there, with the owner and mode of the
   older one. */
typedef struct {
    char *path; /* behind all links; NULL: there is no such place */
    bool exists;
    struct stat old;
} file_place;

bool clear_place(file_place *p, const char *path);
int fill_place(file_place *p, const uint8_t *bytes, size_t length);

/* Where it is not filled. */
void free_place(file_place *p);

/* Whether start_file may be called. On failure errno says why; EBUSY: another program has locked the older file. */
bool can_start_file(const char *path);

/* Whether the path means a file on a disk. */
bool is_regular(const char *path);

/* Whether two paths mean the same file, there or not yet there. */
bool is_same_file(const char *a, const char *b);

/* Writes all bytes to a descriptor. */
bool write_all(int fd, const void *bytes, size_t length);

/* The same, but it gives up where nobody reads what it writes and the end is asked for. */
bool write_until_stopped(int fd, const void *bytes, size_t length);

#endif
