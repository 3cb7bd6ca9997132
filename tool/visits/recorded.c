#include "recorded.h"

#include "exits.h"
#include "say.h"

#include <string.h>
#include <unistd.h>

enum { LARGEST_RECORDING = 1 << 30 };

int read_recorded(recorded *r, const char *path)
{
    bool standard = strcmp(path, "-") == 0;
    *r = (recorded){.path = path, .name = standard ? "standard input" : path, .standard = standard};
    if (standard && isatty(STDIN_FILENO))
        return fail("name a file, or send a recording through a pipe", "no recording comes from a terminal");
    bool whole =
        standard ? read_open(STDIN_FILENO, LARGEST_RECORDING, &r->file) : read_file(path, LARGEST_RECORDING, &r->file);
    if (!whole)
        return fail_errno("name a file with a recorded visit", "%s cannot be read", r->name);
    if (r->file.length > LARGEST_RECORDING)
        return fail("name a recorded visit", "%s has more than %d bytes, and is too large to be read", r->name,
                    LARGEST_RECORDING);
    return DONE;
}

recorded_entry entry_at(content file, size_t begin)
{
    recorded_entry e = {.begin = begin, .first = begin + UND_ENTRY_HEAD, .end = begin + UND_ENTRY_HEAD};
    if (begin < file.length)
        e.kind = file.bytes[begin];
    if (e.first <= file.length)
        e.end += file.bytes[begin + 1] + 256u * file.bytes[begin + 2];
    return e;
}

size_t count_entries(content file)
{
    size_t count = 0;
    for (size_t at = UND_RECORDING_HEAD; at < file.length; at = entry_at(file, at).end)
        count++;
    return count;
}

stream stream_of(content file, uint8_t kind)
{
    return (stream){.file = file, .kind = kind, .next = UND_RECORDING_HEAD};
}

size_t stream_ready(stream *s)
{
    while (s->at == s->end && s->next < s->file.length) {
        recorded_entry e = entry_at(s->file, s->next);
        s->next = e.end;
        if (e.kind == s->kind) {
            s->at = e.first;
            s->end = e.end;
        }
    }
    return s->end - s->at;
}

size_t stream_take(stream *s, uint8_t *bytes, size_t count)
{
    size_t taken = 0;
    for (size_t piece; taken < count && (piece = stream_ready(s)) > 0; taken += piece) {
        piece = piece < count - taken ? piece : count - taken;
        if (bytes)
            memcpy(bytes + taken, s->file.bytes + s->at, piece);
        s->at += piece;
    }
    return taken;
}
