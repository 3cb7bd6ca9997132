#include "replay.h"

#include "otherwise.h"
#include "say.h"

#include <stdint.h>
#include <string.h>

void replay_ask(replay *r)
{
    r->answer = play_with(copies_of(&r->memories), r->visit.file);
}

void add_answer_json(text *t, const replay *r)
{
    const und_replayed *a = &r->answer;
    text_add(t, "{");
    if (a->number != 0)
        text_add(t, "\"event\":\"%s\",", exit_word(REFUSED));
    text_add(t, "\"file\":");
    text_add_json(t, r->visit.path, strlen(r->visit.path));
    text_add(t, ",\"number\":%u,\"equal\":%s,\"place\":", a->number, a->equal ? "true" : "false");
    if (a->number != 0 || a->equal)
        text_add(t, "null");
    else
        text_add(t, "%zu", a->place);
    text_add(t, ",\"ram\":%zu,\"work\":%zu,\"flash\":%zu", r->ram_length, r->work_length, r->memories.flash.length);
    text_add_json_word(t, "ram_file", r->ram_file);
    text_add_json_word(t, "flash_file", r->flash_file);
}

static size_t bytes_of(content file, uint8_t kind)
{
    stream s = stream_of(file, kind);
    return stream_take(&s, NULL, SIZE_MAX);
}

recorded_counts counts_of(const replay *r)
{
    content file = r->visit.file;
    return (recorded_counts){count_entries(file), bytes_of(file, UND_ENTRY_HOST), bytes_of(file, UND_ENTRY_DEVICE)};
}

void add_counts_json(text *t, const replay *r)
{
    recorded_counts c = counts_of(r);
    text_add(t, ",\"entries\":%zu,\"host\":%zu,\"device\":%zu", c.entries, c.host, c.device);
}
