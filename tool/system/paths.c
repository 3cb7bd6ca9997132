#include "paths.h"

#include "text.h"

#include <string.h>

const char *name_of(const char *path)
{
    const char *slash = strrchr(path, '/');
    return slash ? slash + 1 : path;
}

char *folder_of(const char *path)
{
    text t = {0};
    text_add_bytes(&t, path, (size_t)(name_of(path) - path));
    text_add(&t, ".");
    return t.chars;
}
