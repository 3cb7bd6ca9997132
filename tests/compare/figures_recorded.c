/* Recordings that are long, and those of the library's own session. */
#include "figures.h"
#include "fill.h"
#include "replay.h"
#include "undalisho.h"

#include <stdlib.h>
#include <string.h>

static bool is_equal(const model_replayed *r)
{
    return r->number == 0 && r->equal == 1 && r->place == 0;
}

static bool differs_at(const model_replayed *r, size_t place)
{
    return r->number == 0 && r->equal == 0 && r->place == place;
}

/* Bytes that a session drops in so many entries, each of so many bytes, then a header that it refuses. A wrong entry at
   the very end is found too. */
static void dropped_figure(trial *t, uint32_t entries, size_t count)
{
    static const uint8_t dropped[MOST_ENTRY], unknown[] = {0x01, 0x7F, 0, 0}, replies[] = GREETING "\x15" GREETING;
    setting s = setting_of(KIND_UARTBOOT, 16, SECTOR, LEAST_WORK);
    stream file = {0};
    desk d;
    write_head(&file);
    for (uint32_t i = 0; i < entries; i++)
        write_entry(&file, ENTRY_HOST, dropped, count);
    write_entry(&file, ENTRY_HOST, unknown, sizeof unknown);
    write_entry(&file, ENTRY_DEVICE, replies, sizeof replies - 1);
    desk_set(t, &d, &s);
    model_replayed got = replay_on(t, &d, file.bytes, file.length);
    stream_add(&file, 0);
    model_replayed wrong = replay_on(t, &d, file.bytes, file.length);
    if (!is_equal(&got) || wrong.number != 83)
        differ(t, "figure: recording of %u entries with %zu bytes", entries, count);
    free(file.bytes);
}

/* A Read of RAM's first bytes, with the host's CRC-16 of the answer; what the device sends before and after that. */
enum { READ_BYTES = 14, BEFORE = 10, AFTER = 5 };

/* Neighbours in RAM, and bytes 256 places apart, differ. */
static setting read_setting(size_t ram_length)
{
    setting s = setting_of(KIND_UARTBOOT, ram_length, SECTOR, MOST_WORK);
    for (size_t i = 0; i < ram_length; i++)
        s.contents.ram[i] = (uint8_t)(i * 37 + i / 256);
    return s;
}

static void put_read(uint8_t host[READ_BYTES], const setting *s, uint32_t count)
{
    static const uint8_t read[READ_BYTES] = {0x01, OP_READ, 6, 0, 0x00, 0x00, 0xFC, 0x07, [10] = ACK, ACK};
    memcpy(host, read, sizeof read);
    put_little(host + 8, 2, count);
    put_little(host + 12, 2, model_crc16(s->contents.ram, count));
}

static void write_visit(stream *file, const uint8_t host[READ_BYTES], const stream *device)
{
    file->length = 0;
    write_head(file);
    write_entries(file, ENTRY_DEVICE, device->bytes, device->length);
    write_entry(file, ENTRY_HOST, host, READ_BYTES);
}

/* The longest answer: equal, and differing in its last byte. */
static void longest_answer_figure(trial *t)
{
    enum { LAST = BEFORE + MOST_WORK - 1 };
    setting s = read_setting(MOST_RAM);
    model_memories after = contents_of(EXPECTED_CONTENTS, 0, 0, 0);
    stream device = {0}, file = {0};
    uint8_t host[READ_BYTES];
    desk d;
    put_read(host, &s, MOST_WORK);
    play_session(t, &s, host, sizeof host, BEFORE + MOST_WORK + AFTER, &device, &after);
    for (int wrong = 0; wrong < 2; wrong++) {
        device.bytes[LAST] ^= (uint8_t)wrong;
        write_visit(&file, host, &device);
        desk_set(t, &d, &s);
        model_replayed got = replay_on(t, &d, file.bytes, file.length);
        if (!(wrong ? differs_at(&got, LAST) : is_equal(&got)) || !has_contents(&d, &after))
            differ(t, "figure: recording of a session's longest answer, %s", wrong ? "differing" : "equal");
    }
    free(device.bytes);
    free(file.bytes);
}

/* The library's answer alone: there are too many of these for more. */
static model_replayed replay_alone(trial *t, const model_memories *m, const stream *file)
{
    und_replayed r = und_replay(file->bytes, file->length, m->ram, m->ram_length, m->flash, m->flash_length, m->work,
                                m->work_length);
    t->calls++;
    return (model_replayed){r.number, r.equal, r.place};
}

/* Each byte of the device as the last one recorded, wrong, and then missing: wherever room for replies ends, nothing
   is lost. */
static void every_place_figure(trial *t)
{
    enum { ANSWER = 4500 };
    setting s = read_setting(ANSWER);
    model_memories after = contents_of(EXPECTED_CONTENTS, 0, 0, 0);
    stream device = {0}, file = {0};
    uint8_t host[READ_BYTES];
    put_read(host, &s, ANSWER);
    play_session(t, &s, host, sizeof host, BEFORE + ANSWER + AFTER, &device, &after);
    while (device.length > 0) {
        size_t last = device.length - 1;
        device.bytes[last] ^= 0x80;
        write_visit(&file, host, &device);
        model_replayed wrong = replay_alone(t, &after, &file);
        device.length = last;
        write_visit(&file, host, &device);
        model_replayed missing = replay_alone(t, &after, &file);
        if (!differs_at(&wrong, last) || !differs_at(&missing, last))
            differ(t, "figure: recording with the device's byte %zu wrong, or missing", last);
    }
    free(device.bytes);
    free(file.bytes);
}

void recorded_figures(trial *t)
{
    dropped_figure(t, 1, 256);
    dropped_figure(t, 1, 257);
    dropped_figure(t, 1, MOST_ENTRY);
    dropped_figure(t, 17, MOST_ENTRY);
    dropped_figure(t, 70000, 0);
    dropped_figure(t, 70000, 1);
    longest_answer_figure(t);
    every_place_figure(t);
}
