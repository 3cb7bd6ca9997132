#include "link.h"

#include <string.h>
#include <sys/stat.h>
#include <unistd.h>

bool link_make(const char *path, const char *target)
{
    struct stat link, there;
    bool is_link = lstat(path, &link) == 0 && S_ISLNK(link.st_mode);
    if (is_link && (stat(path, &there) != 0 || S_ISCHR(there.st_mode)))
        unlink(path);
    return symlink(target, path) == 0;
}

void link_remove(const char *path, const char *target)
{
    char there[256] = {0};
    if (readlink(path, there, sizeof there - 1) > 0 && strcmp(there, target) == 0)
        unlink(path);
}
