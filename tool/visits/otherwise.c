#include "otherwise.h"

#include "memories.h"

#include <stdlib.h>
#include <string.h>

session copies_of(const session *memories)
{
    session s = *memories;
    s.ram = copy_of(memories->ram);
    s.flash = copy_of(memories->flash);
    s.work = copy_of(memories->work);
    return s;
}

void resize(content *memory, size_t length, int byte)
{
    content other = filled(length, byte);
    memcpy(other.bytes, memory->bytes, length < memory->length ? length : memory->length);
    free(memory->bytes);
    *memory = other;
}

und_replayed play_with(session s, content file)
{
    und_replayed answer = und_replay(file.bytes, file.length, s.ram.bytes, s.ram.length, s.flash.bytes, s.flash.length,
                                     s.work.bytes, s.work.length);
    free(s.ram.bytes);
    free(s.flash.bytes);
    free(s.work.bytes);
    return answer;
}

size_t place_with(session copies, const found_reply *f)
{
    und_replayed answer = play_with(copies, f->at->host.file);
    return answer.equal ? SIZE_MAX : answer.place;
}

bool explains(session copies, const found_reply *f)
{
    return place_with(copies, f) > f->place;
}
