/* The CRCs of bytes. */
#include "plain.h"
#include "subjects.h"

/* The library's CRCs, from crates/crc_c. */
uint16_t und_bench_crc16(const uint8_t *bytes, size_t count);
uint32_t und_bench_crc32(const uint8_t *bytes, size_t count);

static uint8_t *bytes;
static size_t count;
static uint32_t ours, theirs;

void crc_prepare(const subject *s, size_t size)
{
    if (bytes == NULL)
        bytes = room_at(0, 131072);
    (void)s;
    count = size;
    some_bytes(bytes, size);
}

void crc16_library(const subject *s)
{
    (void)s;
    ours = und_bench_crc16(bytes, count);
}

void crc16_plain(const subject *s)
{
    (void)s;
    theirs = plain.crc16(bytes, count);
}

void crc32_library(const subject *s)
{
    (void)s;
    ours = und_bench_crc32(bytes, count);
}

void crc32_plain(const subject *s)
{
    (void)s;
    theirs = plain.crc32(bytes, count);
}

int crc_same(void)
{
    return ours == theirs;
}
