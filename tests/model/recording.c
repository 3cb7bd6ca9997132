/* A recorded visit: the file is split into all bytes of the host and all bytes of the device before either is used. */
#include "little.h"
#include "model.h"

#include <stdlib.h>
#include <string.h>

/* What is left of the file. */
typedef struct {
    const uint8_t *next;
    size_t left;
} rest;

/* The next bytes, or NULL where they are not all there. */
static const uint8_t *take(rest *file, size_t count)
{
    const uint8_t *taken = file->next;
    if (file->left < count)
        return NULL;
    file->next += count;
    file->left -= count;
    return taken;
}

static void append(model_bytes *to, const uint8_t *bytes, size_t count)
{
    if (count)
        memcpy(to->bytes + to->count, bytes, count);
    to->count += count;
}

/* Appends an entry to the bytes of its kind. Gives the number that it is refused with, or 0. */
static uint32_t split_entry(rest *file, model_recording *r)
{
    const uint8_t *kind = take(file, 1), *length, *bytes;
    if (*kind != ENTRY_HOST && *kind != ENTRY_DEVICE)
        return 83;
    length = take(file, 2);
    bytes = length ? take(file, (size_t)little(length, 2)) : NULL;
    if (!bytes)
        return 84;
    append(*kind == ENTRY_HOST ? &r->host : &r->device, bytes, (size_t)little(length, 2));
    return 0;
}

static uint32_t split(rest *file, model_recording *r)
{
    uint32_t number = 0;
    const uint8_t *mark = take(file, 3);
    if (!mark || memcmp(mark, "BLG", 3) != 0)
        return 81;
    const uint8_t *version = take(file, 2);
    if (!version || little(version, 2) != 1)
        return 82;
    while (number == 0 && file->left > 0)
        number = split_entry(file, r);
    return number;
}

static uint8_t *room(size_t count)
{
    uint8_t *bytes = malloc(count + 1);
    if (!bytes)
        abort();
    return bytes;
}

model_recording model_read_recording(const uint8_t *file, size_t length)
{
    model_recording r = {.host.bytes = room(length), .device.bytes = room(length)};
    rest whole = {file, length};
    r.number = split(&whole, &r);
    return r;
}

void model_free_recording(model_recording *r)
{
    free(r->host.bytes);
    free(r->device.bytes);
}

/* How many bytes are the same from the first one on. */
static size_t alike(const uint8_t *a, size_t a_count, const uint8_t *b, size_t b_count)
{
    size_t same = 0;
    while (same < a_count && same < b_count && a[same] == b[same])
        same++;
    return same;
}

static model_replayed play(const model_recording *r, const model_memories *memories)
{
    model_ending e = model_uncut(KIND_UARTBOOT, r->host.bytes, r->host.count, memories);
    size_t same = alike(e.replies, e.sent, r->device.bytes, r->device.count);
    bool equal = same == e.sent && same == r->device.count;
    free(e.replies);
    return equal ? (model_replayed){0, 1, 0} : (model_replayed){0, 0, same};
}

model_replayed model_replay(const uint8_t *file, size_t length, const model_memories *memories)
{
    model_replayed given = {.number = model_judge_memories(memories)};
    if (given.number)
        return given;
    model_recording r = model_read_recording(file, length);
    given.number = r.number;
    if (given.number == 0)
        given = play(&r, memories);
    model_free_recording(&r);
    return given;
}
