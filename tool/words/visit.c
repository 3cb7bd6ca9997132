#include "visit.h"

#include "clock.h"
#include "crc32.h"
#include "version.h"
#include "words.h"

#include <string.h>
#include <time.h>

void visit_begin(visit *v)
{
    v->begun = v->moving = milliseconds_now();
}

void visit_move(visit *v, size_t count)
{
    if (v->moved == 0)
        v->moving = milliseconds_now();
    v->moved += count;
}

/* The date here with the zone, as "2026-03-29T10:15:02+02:00". */
static void add_date(text *t)
{
    char date[32], zone[8] = "+0000";
    time_t now = time(NULL);
    struct tm parts;
    localtime_r(&now, &parts);
    strftime(date, sizeof date, "%Y-%m-%dT%H:%M:%S", &parts);
    strftime(zone, sizeof zone, "%z", &parts);
    text_add(t, "%s%.3s:%s", date, zone, zone + 3);
}

static void add_file(const visit *v, text *words, text *fields)
{
    text_add_json_word(fields, "file", v->file);
    if (!v->file) {
        text_add(fields, ",\"bytes\":null,\"crc32\":null");
        return;
    }
    uint32_t crc = crc32_of(v->content);
    text_add(words, ", %s: ", v->file);
    add_count(words, v->content.length);
    text_add(words, ", CRC-32 %08X", crc);
    text_add(fields, ",\"bytes\":%zu,\"crc32\":\"%08X\"", v->content.length, crc);
}

void visit_add_begin(const visit *v, text *words, text *fields)
{
    text date = {0};
    add_date(&date);
    text_add(words, "; %s, undalisho %s, ", date.chars, VERSION);
    text_add(words, "%s%skind %s, %lu baud", v->port ? v->port : "", v->port ? ", " : "", v->kind, v->baud);
    text_add_json_word(fields, "date", date.chars);
    text_add_json_word(fields, "version", VERSION);
    text_add_json_word(fields, "port", v->port);
    text_add_json_word(fields, "kind", v->kind);
    text_add(fields, ",\"baud\":%lu", v->baud);
    add_file(v, words, fields);
    if (v->label) {
        text_add(words, ", label ");
        text_add_json(words, v->label, strlen(v->label));
    }
    text_add_json_word(fields, "label", v->label);
    text_free(&date);
}

void visit_add_end(const visit *v, const char *result, text *words, text *fields)
{
    long long now = milliseconds_now(), all = now - v->begun, moving = now - v->moving;
    unsigned long long rate = v->moved * 1000ULL / (unsigned long long)(moving > 0 ? moving : 1);
    text_add(words, "; result: %s, %.3f seconds, %llu bytes per second", result, (double)all / 1000, rate);
    text_add_json_word(fields, "result", result);
    text_add(fields, ",\"seconds\":%.3f,\"bytes_per_second\":%llu,\"moved\":%zu", (double)all / 1000, rate, v->moved);
}
