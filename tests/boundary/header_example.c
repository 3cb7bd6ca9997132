/* Runs the first example of undalisho.h (header-examples.inc), against a host that writes to RAM, reads it back and
   runs it. */
#include "undalisho.h"

#include <stdio.h>
#include <string.h>

enum { DATA = 200 }; /* more than the example's reply has room for */

static uint8_t from_host[1024], to_host[1024], expected[1024];
static size_t from_host_len, given, to_host_len, expected_len;

/* The line, a few bytes at a time. */
static size_t read_line(uint8_t *line, size_t room)
{
    size_t count = from_host_len - given < 7 ? from_host_len - given : 7;

    count = count < room ? count : room;
    memcpy(line, from_host + given, count);
    given += count;
    return count;
}

static void write_line(const uint8_t *bytes, size_t count)
{
    memcpy(to_host + to_host_len, bytes, count);
    to_host_len += count;
}

#include "header-examples.inc"

static void host(const void *bytes, size_t count)
{
    memcpy(from_host + from_host_len, bytes, count);
    from_host_len += count;
}

static void expect(const void *bytes, size_t count)
{
    memcpy(expected + expected_len, bytes, count);
    expected_len += count;
}

static void crc16(const uint8_t *bytes, size_t count, uint8_t crc[2])
{
    uint32_t value = 0xFFFF;

    for (size_t i = 0; i < count; i++) {
        value ^= (uint32_t)bytes[i] << 8;
        for (int bit = 0; bit < 8; bit++)
            value = (value << 1 ^ (value & 0x8000 ? 0x1021 : 0)) & 0xFFFF;
    }
    crc[0] = (uint8_t)(value & 0xFF);
    crc[1] = (uint8_t)(value >> 8);
}

/* A command with a payload, up to the host's 06. */
static void command(uint8_t opcode, const uint8_t *payload, size_t count)
{
    const uint8_t header[] = {0x01, opcode, (uint8_t)(count & 0xFF), (uint8_t)(count >> 8)};
    uint8_t crc[2];

    crc16(payload, count, crc);
    host(header, 4);
    host(payload, count);
    host("\x06", 1);
    expect("\x02\x01\x00\x03\x06\x06", 6);
    expect(crc, 2);
}

int main(void)
{
    static uint8_t ram[1024], flash[UND_FLASH_SECTOR];
    uint8_t payload[4 + DATA] = {0x10, 0x00, 0xFC, 0x07}, crc[2]; /* 16 bytes after UND_RAM_FIRST */
    uint32_t address;

    for (int i = 0; i < DATA; i++)
        payload[4 + i] = (uint8_t)(i * 7);
    command(0x01, payload, sizeof payload);

    command(0x02, (const uint8_t *)"\x10\x00\xFC\x07\xC8\x00", 6);
    crc16(payload + 4, DATA, crc);
    host("\x06", 1);
    host(crc, 2);
    expect("\xC8\x00", 2);
    expect(payload + 4, DATA);
    expect("\x06", 1);

    command(0x05, payload, 4);

    address = serve(ram, sizeof ram, flash, sizeof flash);
    if (address != UND_RAM_FIRST + 16 || memcmp(ram + 16, payload + 4, DATA) != 0)
        return fprintf(stderr, "header_example: the code does not run\n"), 1;
    if (to_host_len != expected_len || memcmp(to_host, expected, expected_len) != 0)
        return fprintf(stderr, "header_example: the host was sent other bytes\n"), 1;
    return 0;
}
