/* A program over the installed library, compiled as C and as C++. It calls each function. */
#include <undalisho.h>

#include <stdio.h>
#include <string.h>

static const uint8_t code[] = {0x11, 0x22, 0x44};
static uint8_t ram[16], flash[UND_FLASH_SECTOR], work[UND_WORK_MIN], frame[16], reply[16];
static uint32_t record[UND_RECORD_WORDS];

static int versions(void)
{
    const uint8_t low[16] = {'1', '.', '9'}, high[16] = {'1', '.', '1', '0'};

    return und_rank(high, 16).rank[1] == 10 && und_order(low, 16, high, 16).order == -1;
}

/* Two fields, of which the second is empty. */
static int trays(void)
{
    const uint8_t fields[2 * UND_VERSION_FIELD] = {'1', '.', '9'};
    uint32_t ranks[2 * UND_TRAY_ENTRY];

    return und_rank_tray(fields, sizeof fields, ranks, 2 * UND_TRAY_ENTRY) == 0 && ranks[1] == 9 &&
           ranks[UND_RANK_NUMBERS] == 0 && ranks[UND_TRAY_ENTRY + UND_RANK_NUMBERS] == 61;
}

static int images(void)
{
    return und_select(flash, sizeof flash, 0).number == 52 && und_offer(flash, 64, flash + 64, 64).number == 62 &&
           und_next_id(255) == 0;
}

static int readings(void)
{
    static const uint8_t run[] = {0x00, 0x00, 0xFC, 0x07};

    return und_read_image(flash, sizeof flash, 0).rule == UND_RULE_MARK &&
           und_read_product(flash, sizeof flash, UND_FLASH_SECTOR).number == 51 &&
           und_read_command(0x05, run, sizeof run).address == UND_RAM_FIRST;
}

static int makings(void)
{
    static const uint8_t version[16] = "1.10";
    und_image_header image = und_make_image_header(flash, 1, 255, version, sizeof version, 1);

    return image.number == 0 && image.bytes[3] == 255 && image.bytes[28] == 1 &&
           und_make_product_header(0, 0xFF000000u).bytes[11] == 0xFF;
}

static int runs(uint32_t kind, und_framed framed)
{
    und_report r;

    memset(ram, 0, sizeof ram);
    und_rom_fresh(kind, record);
    r = und_rom_call(record, frame, framed.length, reply, sizeof reply, ram, sizeof ram);
    return r.standing == UND_RUNS && r.sent == 3 && reply[2] == 0x77 && memcmp(ram, code, sizeof code) == 0;
}

static int receivers(void)
{
    return runs(UND_KIND_P, und_frame_p(code, sizeof code, frame, sizeof frame)) &&
           runs(UND_KIND_E, und_frame_e(code, sizeof code, frame, sizeof frame));
}

static int uartboot(void)
{
    static const uint8_t erase[] = {0x01, 0x04, 0x07, 0x00}, replies[] = {2, 1, 0, 3, 0x15, 2, 1, 0, 3};
    und_report r;

    und_uartboot_fresh(record);
    r = und_uartboot_call(record, erase, sizeof erase, reply, sizeof reply, ram, sizeof ram, flash, sizeof flash, work,
                          sizeof work);
    return r.sent == sizeof replies && memcmp(reply, replies, sizeof replies) == 0 && record[UND_RECORD_REASON] == 12;
}

static int hosts(void)
{
    static const uint8_t device[] = {2, 1, 0, 3, 6, 7, 0, '0', '.', '0', '.', '0', '.', '3', 6},
                         sent[] = {1, 0x0B, 0, 0};
    uint8_t answer[7];
    und_report r;

    und_host_fresh(record);
    r = und_host_call(record, UND_OP_VERSION, NULL, 0, device, sizeof device, reply, sizeof reply, answer,
                      sizeof answer);
    return r.standing == UND_OVER && r.taken == sizeof device && r.sent == 7 && memcmp(reply, sent, sizeof sent) == 0 &&
           record[UND_RECORD_REASON] == 0 && memcmp(answer, "0.0.0.3", sizeof answer) == 0;
}

/* A greeting alone, and one whose last byte differs. */
static int recordings(void)
{
    uint8_t recording[] = {'B', 'L', 'G', 1, 0, UND_ENTRY_DEVICE, 4, 0, 2, 1, 0, 3};
    und_replayed equal, differing;

    equal = und_replay(recording, sizeof recording, ram, sizeof ram, flash, sizeof flash, work, sizeof work);
    recording[sizeof recording - 1] = 4;
    differing = und_replay(recording, sizeof recording, ram, sizeof ram, flash, sizeof flash, work, sizeof work);
    return equal.number == 0 && equal.equal == 1 && differing.number == 0 && differing.equal == 0 &&
           differing.place == 3;
}

int main(void)
{
    if (versions() && trays() && images() && readings() && makings() && receivers() && uartboot() && hosts() &&
        recordings())
        return 0;
    fprintf(stderr, "installed: the library answers otherwise\n");
    return 1;
}
