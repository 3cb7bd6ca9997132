#include "recording.h"

#include "files.h"

#include <errno.h>
#include <stdlib.h>
#include <string.h>

/* The first bytes are the mark; any version may follow. */
enum { MARK = 3 };

const uint8_t recording_head[UND_RECORDING_HEAD] = {'B', 'L', 'G', UND_RECORDING_VERSION, 0};

bool may_record_in(const char *path)
{
    content c;
    if (!is_regular(path))
        return true;
    if (!read_file(path, MARK, &c))
        return false;
    bool may = c.length == 0 || (c.length >= MARK && memcmp(c.bytes, recording_head, MARK) == 0);
    free(c.bytes);
    if (!may)
        errno = EEXIST;
    return may;
}

static text beside(const char *recording, const char *ending)
{
    text t = {0};
    text_add(&t, "%s.%s", recording, ending);
    return t;
}

text recorded_ram(const char *recording)
{
    return beside(recording, "ram");
}

text recorded_work(const char *recording)
{
    return beside(recording, "work");
}

text recorded_flash(const char *recording)
{
    return beside(recording, "flash");
}
