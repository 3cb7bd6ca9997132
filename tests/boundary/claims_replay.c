/* What undalisho.h says of recorded visits, asked of the library: their form, what differs where, what is refused and
   written. */
#include "hold.h"
#include "undalisho.h"

#include <string.h>

enum { RAM = 16, FLASH = UND_FLASH_SECTOR, WORK = UND_WORK_MIN };

/* A recording that is being written, and memories. The last answer is of a replay with both. */
static uint8_t file[UND_RECORDING_HEAD + 4 * UND_ENTRY_HEAD + UND_ENTRY_MAX + 256];
static size_t length;
static uint8_t ram[RAM], flash[FLASH], work[UND_WORK_MAX + 1];
static und_replayed last;

static void put(const void *bytes, size_t count)
{
    if (count)
        memcpy(file + length, bytes, count);
    length += count;
}

static void put16(size_t number)
{
    const uint8_t both[] = {(uint8_t)number, (uint8_t)(number >> 8)};
    put(both, 2);
}

static void begin_with(const char *mark, size_t version)
{
    length = 0;
    put(mark, strlen(mark));
    put16(version);
}

static void begin(void)
{
    begin_with("BLG", UND_RECORDING_VERSION);
}

static void entry(uint8_t kind, const void *bytes, size_t count)
{
    put(&kind, 1);
    put16(count);
    put(bytes, count);
}

#define BYTES(text) text, sizeof(text) - 1
#define HOST(text) entry(UND_ENTRY_HOST, BYTES(text))
#define DEVICE(text) entry(UND_ENTRY_DEVICE, BYTES(text))

#define GREETING "\x02\x01\x00\x03"

/* clang-format off */
/* Commands, and what the session sends for each up to the next greeting: a Write of A5 to RAM's first byte, a Direct
   write of 3C to the flash's, a Run. */
#define WRITE "\x01\x01\x05\x00" "\x00\x00\xFC\x07" "\xA5" "\x06"
#define WRITTEN GREETING "\x06" "\x06" "\xE7\xFB" GREETING
#define STORE "\x01\x12\x06\x00" "\x00" "\x00\x00\x00\x00" "\x3C" "\x06"
#define STORED GREETING "\x06" "\x06" "\xCF\xF9" GREETING
#define RUN "\x01\x05\x04\x00" "\x00\x00\xFC\x07" "\x06"
#define RUNNING GREETING "\x06" "\x06" "\x8B\xA2"
/* clang-format on */

/* The flash holds F0, RAM and work buffer EE. */
static void replay_with(size_t bytes, size_t ram_len, size_t flash_len, size_t work_len)
{
    memset(ram, 0xEE, sizeof ram);
    memset(flash, 0xF0, sizeof flash);
    memset(work, 0xEE, sizeof work);
    last = und_replay(file, bytes, ram, ram_len, flash, flash_len, work, work_len);
}

/* Of the first so many bytes of the recording. */
static uint32_t number_of(size_t bytes)
{
    replay_with(bytes, RAM, FLASH, WORK);
    return last.number;
}

static int is_equal(void)
{
    replay_with(length, RAM, FLASH, WORK);
    return last.number == 0 && last.equal == 1 && last.place == 0;
}

static int differs_at(size_t place)
{
    replay_with(length, RAM, FLASH, WORK);
    return last.number == 0 && last.equal == 0 && last.place == place;
}

static int holds(const uint8_t *bytes, size_t count, uint8_t value)
{
    while (count > 0 && bytes[count - 1] == value)
        count--;
    return count == 0;
}

/* Whether the last call was refused with this number, says no more, and has written nothing. */
static int refused(uint32_t number)
{
    return last.number == number && last.equal == 0 && last.place == 0 && holds(ram, RAM, 0xEE) &&
           holds(flash, FLASH, 0xF0) && holds(work, sizeof work, 0xEE);
}

static int refuses(uint32_t number, size_t bytes)
{
    return number_of(bytes) == number && refused(number);
}

/* Each constant is named in its claim, so that what is not so says which one is wrong. */
static void form(void)
{
    static const uint8_t dropped[UND_ENTRY_MAX + 1];

    begin_with("BLG", UND_RECORDING_VERSION);
    HOLD(UND_RECORDING_VERSION == 1 && number_of(length) == 0);
    HOLD(file[0] == 0x42 && file[1] == 0x4C && file[2] == 0x47 && length == UND_RECORDING_HEAD);
    entry(1, NULL, 0);
    entry(2, dropped, 200);
    HOLD(number_of(UND_RECORDING_HEAD) == 0 && number_of(UND_RECORDING_HEAD - 1) == 82);
    HOLD(number_of(5 + UND_ENTRY_HEAD) == 0 && number_of(5 + UND_ENTRY_HEAD - 1) == 84);
    begin();
    entry(UND_ENTRY_HOST, "\x00", 1);
    entry(2, BYTES(GREETING));
    HOLD(UND_ENTRY_HOST == 1 && is_equal());
    begin();
    entry(UND_ENTRY_DEVICE, BYTES(GREETING));
    HOLD(UND_ENTRY_DEVICE == 2 && is_equal());
    put("\x01\xFF\xFF", 3);
    put(dropped, UND_ENTRY_MAX);
    HOLD(number_of(length - 1) == 84 && UND_ENTRY_MAX == 65535 && is_equal());
}

/* Cuts into entries, and their order, make no difference; none are needed. */
static void joined(void)
{
    begin();
    HOLD(differs_at(0));
    HOST(WRITE);
    DEVICE(WRITTEN);
    HOLD(is_equal() && ram[0] == 0xA5);
    begin();
    DEVICE(WRITTEN);
    HOST(WRITE);
    HOLD(is_equal() && ram[0] == 0xA5);
    begin();
    DEVICE("");
    DEVICE("\x02");
    HOST("\x01\x01\x05");
    DEVICE("\x01\x00\x03\x06\x06");
    HOST("");
    HOST("\x00\x00\x00\xFC\x07\xA5");
    HOST("\x06");
    DEVICE("\xE7\xFB" GREETING);
    HOLD(is_equal() && ram[0] == 0xA5);
}

/* The first byte that differs, from 0; where too few are recorded, their count; where too many, the first one past the
   replies. */
static void places(void)
{
    begin();
    DEVICE("\x03\x01\x00\x03");
    HOLD(differs_at(0));
    begin();
    DEVICE("\x02\x01\x01\x02");
    HOLD(differs_at(2));
    begin();
    DEVICE("\x02\x01\x00");
    HOLD(differs_at(3));
    begin();
    DEVICE(GREETING "\x02");
    HOLD(differs_at(4));
    begin();
    DEVICE(GREETING);
    HOLD(is_equal());
}

/* Code runs: bytes of the host after it make no difference, those of the device are too many. */
static void running(void)
{
    begin();
    HOST(RUN STORE);
    DEVICE(RUNNING);
    HOLD(is_equal() && holds(flash, FLASH, 0xF0));
    HOST(WRITE);
    HOLD(is_equal() && holds(ram, RAM, 0xEE));
    DEVICE(GREETING);
    HOLD(differs_at(8));
}

/* The memories are as lent at first, and as the session leaves them, whether the bytes are equal or not. */
static void memories(void)
{
    begin();
    HOST(STORE);
    DEVICE(STORED);
    HOLD(is_equal() && flash[0] == 0x30 && holds(flash + 1, FLASH - 1, 0xF0));
    HOLD(holds(ram, RAM, 0xEE) && memcmp(work, "\x00\x00\x00\x00\x00\x3C\xEE", 7) == 0);
    begin();
    DEVICE("\x00");
    HOST(STORE);
    HOLD(differs_at(0) && flash[0] == 0x30 && work[5] == 0x3C);
    begin();
    HOST(STORE);
    DEVICE(STORED "\x00");
    HOLD(differs_at(12) && flash[0] == 0x30 && work[5] == 0x3C);
    begin();
    HOST(WRITE);
    HOLD(differs_at(0) && ram[0] == 0xA5 && holds(ram + 1, RAM - 1, 0xEE));
}

/* What is wrong with a recording whose first entry would store. */
static void refusals(void)
{
    begin_with("BLF", 1);
    HOST(STORE);
    HOLD(refuses(81, length) && refuses(81, 2) && refuses(81, 0));
    begin_with("BLG", 2);
    HOST(STORE);
    HOLD(refuses(82, length) && refuses(82, 3) && refuses(82, 4));
    begin_with("BLG", 0x101);
    HOST(STORE);
    HOLD(refuses(82, length));
    begin();
    HOST(STORE);
    entry(3, NULL, 0);
    HOLD(refuses(83, length) && refuses(83, length - 1) && refuses(83, length - 2));
    begin();
    HOST(STORE);
    DEVICE("\x02\x01");
    HOLD(refuses(84, length - 1) && refuses(84, length - 2) && refuses(84, length - 3) && refuses(84, length - 4));
    begin();
    HOST(STORE);
    HOLD(refuses(84, length - 1));
}

/* The lengths of memories come first, in their order; then what is first in the recording. */
static void order_of_refusals(void)
{
    begin_with("BLX", 2);
    entry(3, NULL, 0);
    replay_with(length, 0, 1, UND_WORK_MIN - 1);
    HOLD(refused(1));
    replay_with(length, RAM, FLASH, UND_WORK_MAX + 1);
    HOLD(refused(1));
    replay_with(length, 0, 1, WORK);
    HOLD(refused(2));
    replay_with(length, RAM, 1, WORK);
    HOLD(refused(3));
    HOLD(refuses(81, length));
    begin_with("BLG", 2);
    entry(3, NULL, 0);
    HOLD(refuses(82, length));
    begin();
    entry(3, NULL, 0);
    HOST(STORE);
    HOLD(refuses(83, length - 1));
    begin();
    entry(3, BYTES(GREETING));
    HOLD(refuses(83, length - 1));
}

int main(void)
{
    form();
    joined();
    places();
    running();
    memories();
    refusals();
    order_of_refusals();
    return wrong;
}
