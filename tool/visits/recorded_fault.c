#include "recorded_fault.h"

#include "recorded.h"
#include "recording.h"
#include "words.h"

static void add_file_end(text *t, content file)
{
    text_add(t, file.length ? "it ends after " : "it is empty");
    if (file.length)
        add_count(t, file.length);
}

static recorded_fault find_in_head(content file, text *words)
{
    size_t at = 0;
    while (at < UND_RECORDING_HEAD && at < file.length && file.bytes[at] == recording_head[at])
        at++;
    if (at >= file.length)
        add_file_end(words, file);
    else {
        add_offset(words, at);
        text_add(words, " has %02X, not %02X", file.bytes[at], recording_head[at]);
    }
    return (recorded_fault){.offset = at};
}

static bool is_good(content file, recorded_entry e)
{
    return (e.kind == UND_ENTRY_HOST || e.kind == UND_ENTRY_DEVICE) && e.end <= file.length;
}

static void add_cut(text *words, content file, recorded_entry e)
{
    size_t missing = e.end - file.length;
    if (e.first > file.length)
        text_add(words, ", has no whole length: ");
    else
        text_add(words, ", has %zu of its %zu bytes: ", file.length - e.first, e.end - e.first);
    add_count(words, missing);
    text_add(words, " %s missing at the file's end, ", missing == 1 ? "is" : "are");
    add_offset(words, file.length);
}

static recorded_fault find_in_entries(content file, bool unknown, text *words)
{
    recorded_entry e = entry_at(file, UND_RECORDING_HEAD);
    size_t number = 1;
    for (; is_good(file, e); number++)
        e = entry_at(file, e.end);
    text_add(words, "entry %zu, at ", number);
    add_offset(words, e.begin);
    if (unknown) {
        text_add(words, ", has kind %02X; there are %02X, host, and %02X, device", e.kind, UND_ENTRY_HOST,
                 UND_ENTRY_DEVICE);
        return (recorded_fault){.offset = e.begin, .entry = number, .begins = e.begin};
    }
    add_cut(words, file, e);
    return (recorded_fault){.offset = file.length, .entry = number, .begins = e.begin, .missing = e.end - file.length};
}

recorded_fault find_fault(content file, uint32_t number, text *words)
{
    if (number == UND_UNKNOWN_ENTRY || number == UND_SHORT_ENTRY)
        return find_in_entries(file, number == UND_UNKNOWN_ENTRY, words);
    return find_in_head(file, words);
}
