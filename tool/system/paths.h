/* The parts of a path. */
#ifndef PATHS_H
#define PATHS_H

/* The last name in it. */
const char *name_of(const char *path);

/* The folder that it lies in; to be freed. */
char *folder_of(const char *path);

#endif
