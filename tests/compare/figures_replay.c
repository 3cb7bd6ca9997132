/* Recordings written out byte by byte, each with its answer and what it leaves in the memories. */
#include "figures.h"
#include "replay.h"

#include <string.h>

typedef struct {
    const char *name;
    const char *file;
    size_t length;
    model_replayed answer;
    uint8_t ram, flash; /* the first byte of each afterwards */
} replay;

/* clang-format off */
#define HEAD "BLG\x01\x00"
#define HOST "\x01"
#define DEVICE "\x02"
#define EQUAL {0, 1, 0}
#define DIFFERS_AT(place) {0, 0, place}
#define REFUSED(number) {number, 0, 0}
/* Their first bytes as they are lent. */
#define UNTOUCHED 0x00, 0xF0

/* Commands, and what the device sends from the first greeting on. */
#define VERSION "\x01\x0B\x00\x00" "\x06" "\x6E\x62"
#define VERSION_REPLIES GREETING "\x06" "\x07\x00" "0.0.0.3" "\x06" GREETING
#define WRITE_A5 "\x01\x01\x05\x00" "\x00\x00\xFC\x07" "\xA5" "\x06"
#define WRITE_A5_REPLIES GREETING "\x06" "\x06" "\xE7\xFB" GREETING
#define STORE_3C "\x01\x12\x06\x00" "\x00" "\x00\x00\x00\x00" "\x3C" "\x06"
#define STORE_3C_REPLIES GREETING "\x06" "\x06" "\xCF\xF9" GREETING
#define CHIP_ERASE "\x01\x0C\x00\x00"
#define RUN "\x01\x05\x04\x00" "\x00\x00\xFC\x07" "\x06"
#define RUN_REPLIES GREETING "\x06" "\x06" "\x8B\xA2"

/* An entry of any kind after a Write. */
#define WRITE_AND_ENTRY HEAD HOST "\x0A\x00" WRITE_A5 "?" "\x01\x00" "\x00"

static const replay compared[] = {
    {"nothing", BYTES(HEAD), DIFFERS_AT(0), UNTOUCHED},
    {"a greeting", BYTES(HEAD DEVICE "\x04\x00" GREETING), EQUAL, UNTOUCHED},
    {"a greeting without its end", BYTES(HEAD DEVICE "\x03\x00" "\x02\x01\x00"), DIFFERS_AT(3), UNTOUCHED},
    {"a greeting and a byte", BYTES(HEAD DEVICE "\x05\x00" GREETING "\x06"), DIFFERS_AT(4), UNTOUCHED},
    {"a greeting and a byte in an entry of its own", BYTES(HEAD DEVICE "\x04\x00" GREETING DEVICE "\x01\x00" "\x06"),
     DIFFERS_AT(4), UNTOUCHED},
    {"a wrong first byte", BYTES(HEAD DEVICE "\x04\x00" "\x03\x01\x00\x03"), DIFFERS_AT(0), UNTOUCHED},
    {"a wrong last byte", BYTES(HEAD DEVICE "\x04\x00" "\x02\x01\x00\x02"), DIFFERS_AT(3), UNTOUCHED},
    {"two wrong bytes", BYTES(HEAD DEVICE "\x04\x00" "\x02\x00\x01\x03"), DIFFERS_AT(1), UNTOUCHED},
    {"a greeting in three entries, with empty ones",
     BYTES(HEAD DEVICE "\x00\x00" DEVICE "\x01\x00" "\x02" HOST "\x00\x00" DEVICE "\x02\x00" "\x01\x00"
           DEVICE "\x00\x00" DEVICE "\x01\x00" "\x03" HOST "\x00\x00"), EQUAL, UNTOUCHED},
    {"empty entries alone", BYTES(HEAD HOST "\x00\x00" DEVICE "\x00\x00"), DIFFERS_AT(0), UNTOUCHED},
    {"Version, as it was spoken",
     BYTES(HEAD DEVICE "\x04\x00" GREETING HOST "\x04\x00" "\x01\x0B\x00\x00" DEVICE "\x03\x00" "\x06\x07\x00"
           HOST "\x01\x00" "\x06" DEVICE "\x07\x00" "0.0.0.3" HOST "\x02\x00" "\x6E\x62"
           DEVICE "\x05\x00" "\x06" GREETING), EQUAL, UNTOUCHED},
    {"Version, the host first", BYTES(HEAD HOST "\x07\x00" VERSION DEVICE "\x13\x00" VERSION_REPLIES), EQUAL,
     UNTOUCHED},
    {"Version, the device first", BYTES(HEAD DEVICE "\x13\x00" VERSION_REPLIES HOST "\x07\x00" VERSION), EQUAL,
     UNTOUCHED},
    {"Version, its last greeting missing",
     BYTES(HEAD HOST "\x07\x00" VERSION DEVICE "\x0F\x00" GREETING "\x06" "\x07\x00" "0.0.0.3" "\x06"),
     DIFFERS_AT(15), UNTOUCHED},
    {"Version with another answer",
     BYTES(HEAD HOST "\x07\x00" VERSION DEVICE "\x13\x00" GREETING "\x06" "\x07\x00" "0.0.0.2" "\x06" GREETING),
     DIFFERS_AT(13), UNTOUCHED},
    {"Version with a wrong CRC", BYTES(HEAD HOST "\x07\x00" "\x01\x0B\x00\x00" "\x06" "\x6E\x63"
                                       DEVICE "\x13\x00" VERSION_REPLIES), DIFFERS_AT(14), UNTOUCHED},
    {"a Write", BYTES(HEAD HOST "\x0A\x00" WRITE_A5 DEVICE "\x0C\x00" WRITE_A5_REPLIES), EQUAL, 0xA5, 0xF0},
    {"a Write of which the device says nothing", BYTES(HEAD HOST "\x0A\x00" WRITE_A5), DIFFERS_AT(0), 0xA5, 0xF0},
    {"a Direct write after a wrong greeting",
     BYTES(HEAD DEVICE "\x04\x00" "\x02\x01\x01\x03" HOST "\x0B\x00" STORE_3C), DIFFERS_AT(2), 0x00, 0x30},
    {"a Direct write after a greeting that ends the device's bytes",
     BYTES(HEAD DEVICE "\x04\x00" GREETING HOST "\x0B\x00" STORE_3C), DIFFERS_AT(4), 0x00, 0x30},
    {"a Direct write", BYTES(HEAD HOST "\x0B\x00" STORE_3C DEVICE "\x0C\x00" STORE_3C_REPLIES), EQUAL, 0x00, 0x30},
    {"a Write without its last byte",
     BYTES(HEAD HOST "\x09\x00" "\x01\x01\x05\x00" "\x00\x00\xFC\x07" "\xA5" DEVICE "\x08\x00" GREETING "\x06" "\x06"
           "\xE7\xFB"), EQUAL, UNTOUCHED},
    {"a Chip erase after code runs",
     BYTES(HEAD HOST "\x0D\x00" RUN CHIP_ERASE DEVICE "\x08\x00" RUN_REPLIES), EQUAL, UNTOUCHED},
    {"a Chip erase after code runs, in an entry of its own",
     BYTES(HEAD HOST "\x09\x00" RUN DEVICE "\x08\x00" RUN_REPLIES HOST "\x04\x00" CHIP_ERASE), EQUAL, UNTOUCHED},
    {"a Run of which the last reply is missing",
     BYTES(HEAD HOST "\x09\x00" RUN DEVICE "\x07\x00" GREETING "\x06" "\x06" "\x8B"), DIFFERS_AT(7), UNTOUCHED},
    {"a greeting after code runs", BYTES(HEAD HOST "\x09\x00" RUN DEVICE "\x0C\x00" RUN_REPLIES GREETING),
     DIFFERS_AT(8), UNTOUCHED},
};

/* A Write would store if it were played before all is judged. */
static const replay refused[] = {
    {"nothing at all", BYTES(""), REFUSED(81), UNTOUCHED},
    {"a part of the mark", BYTES("B"), REFUSED(81), UNTOUCHED},
    {"two bytes of the mark", BYTES("BL"), REFUSED(81), UNTOUCHED},
    {"a wrong end of the mark", BYTES("BLX"), REFUSED(81), UNTOUCHED},
    {"a wrong middle", BYTES("BXG\x01\x00"), REFUSED(81), UNTOUCHED},
    {"a wrong start", BYTES("XLG\x01\x00"), REFUSED(81), UNTOUCHED},
    {"a small letter", BYTES("BLg\x01\x00"), REFUSED(81), UNTOUCHED},
    {"a wrong mark and version", BYTES("BLX\x02\x00"), REFUSED(81), UNTOUCHED},
    {"a wrong mark and kind", BYTES("GLB\x01\x00" "\x03"), REFUSED(81), UNTOUCHED},
    {"no version", BYTES("BLG"), REFUSED(82), UNTOUCHED},
    {"half a version", BYTES("BLG\x01"), REFUSED(82), UNTOUCHED},
    {"half a wrong version", BYTES("BLG\x02"), REFUSED(82), UNTOUCHED},
    {"version 2", BYTES("BLG\x02\x00"), REFUSED(82), UNTOUCHED},
    {"version 0", BYTES("BLG\x00\x00"), REFUSED(82), UNTOUCHED},
    {"version 257", BYTES("BLG\x01\x01"), REFUSED(82), UNTOUCHED},
    {"version 1 with the high byte first", BYTES("BLG\x00\x01"), REFUSED(82), UNTOUCHED},
    {"a wrong version and kind", BYTES("BLG\x02\x00" "\x03"), REFUSED(82), UNTOUCHED},
    {"a wrong version before a Write", BYTES("BLG\x02\x00" HOST "\x0A\x00" WRITE_A5), REFUSED(82), UNTOUCHED},
    {"kind 0", BYTES(HEAD HOST "\x0A\x00" WRITE_A5 "\x00" "\x00\x00"), REFUSED(83), UNTOUCHED},
    {"kind 3", BYTES(HEAD HOST "\x0A\x00" WRITE_A5 "\x03" "\x00\x00"), REFUSED(83), UNTOUCHED},
    {"kind FF", BYTES(HEAD HOST "\x0A\x00" WRITE_A5 "\xFF" "\x01\x00" "\x00"), REFUSED(83), UNTOUCHED},
    {"kind 3 in the first entry", BYTES(HEAD "\x03" "\x00\x00" HOST "\x0A\x00" WRITE_A5), REFUSED(83), UNTOUCHED},
    {"kind 3 alone", BYTES(HEAD "\x03"), REFUSED(83), UNTOUCHED},
    {"kind 3 and half a length", BYTES(HEAD HOST "\x0A\x00" WRITE_A5 "\x03" "\x01"), REFUSED(83), UNTOUCHED},
    {"kind 3, cut short", BYTES(HEAD HOST "\x0A\x00" WRITE_A5 "\x03" "\x02\x00" "\x00"), REFUSED(83), UNTOUCHED},
    {"kind 3 before an entry that is cut short", BYTES(HEAD "\x03" "\x00\x00" HOST "\x0A\x00" "\x01"), REFUSED(83),
     UNTOUCHED},
    {"an entry without a length", BYTES(HEAD HOST "\x0A\x00" WRITE_A5 HOST), REFUSED(84), UNTOUCHED},
    {"half a length", BYTES(HEAD HOST "\x0A\x00" WRITE_A5 DEVICE "\x00"), REFUSED(84), UNTOUCHED},
    {"a length without its byte", BYTES(HEAD HOST "\x0A\x00" WRITE_A5 HOST "\x01\x00"), REFUSED(84), UNTOUCHED},
    {"one byte of two", BYTES(HEAD HOST "\x0A\x00" WRITE_A5 DEVICE "\x02\x00" "\x02"), REFUSED(84), UNTOUCHED},
    {"one byte of 257", BYTES(HEAD HOST "\x0A\x00" WRITE_A5 DEVICE "\x01\x01" "\x02"), REFUSED(84), UNTOUCHED},
    {"a Write that is cut short", BYTES(HEAD HOST "\x0B\x00" WRITE_A5), REFUSED(84), UNTOUCHED},
    {"a cut entry after code runs", BYTES(HEAD HOST "\x09\x00" RUN HOST "\x01\x00"), REFUSED(84), UNTOUCHED},
    {"a cut entry after a difference", BYTES(HEAD DEVICE "\x01\x00" "\x03" HOST "\x01\x00"), REFUSED(84), UNTOUCHED},
};
/* clang-format on */

static bool is_answer(const model_replayed *got, const model_replayed *want)
{
    return got->number == want->number && got->equal == want->equal && got->place == want->place;
}

static void replay_figure(trial *t, const replay *r, bool null_if_empty)
{
    setting s = setting_of(KIND_UARTBOOT, 16, SECTOR, LEAST_WORK);
    desk d;
    memset(s.contents.work, 0xEE, LEAST_WORK);
    desk_set(t, &d, &s);
    d.null_if_empty = null_if_empty;
    model_replayed got = replay_on(t, &d, (const uint8_t *)r->file, r->length);
    if (!is_answer(&got, &r->answer) || d.library.ram[0] != r->ram || d.library.flash[0] != r->flash ||
        (r->answer.number && !has_contents(&d, &s.contents)))
        differ(t, "figure: recording of %s", r->name);
}

/* Lengths of memories are judged first, whatever the recording is. */
static void length_figures(trial *t, const char *file, size_t length)
{
    static const struct {
        size_t ram, flash, work;
        uint32_t number;
    } lengths[] = {{0, 1, 63, 1}, {16, SECTOR, 0, 1}, {16, SECTOR, MOST_WORK + 1, 1},
                   {0, 0, 64, 2}, {16, 0, 64, 3},     {16, SECTOR - 1, 64, 3}};
    for (size_t i = 0; i < sizeof lengths / sizeof *lengths; i++) {
        setting s = setting_of(KIND_UARTBOOT, lengths[i].ram, lengths[i].flash, lengths[i].work);
        desk d;
        desk_set(t, &d, &s);
        model_replayed got = replay_on(t, &d, (const uint8_t *)file, length), want = {lengths[i].number, 0, 0};
        if (!is_answer(&got, &want) || !has_contents(&d, &s.contents))
            differ(t, "figure: recording of %zu bytes with lengths that get %u", length, want.number);
    }
}

/* A Write, and then an entry of a kind. */
static void kind_figure(trial *t, uint8_t kind)
{
    uint8_t file[] = WRITE_AND_ENTRY;
    bool known = kind == ENTRY_HOST || kind == ENTRY_DEVICE;
    replay r = {"an entry of any kind", (const char *)file, sizeof file - 1, DIFFERS_AT(0), 0xA5, 0xF0};
    *(uint8_t *)memchr(file, '?', sizeof file) = kind;
    if (!known)
        r = (replay){"an entry of an unknown kind", r.file, r.length, REFUSED(83), UNTOUCHED};
    replay_figure(t, &r, false);
}

/* What is empty is lent as bytes or as NULL. */
static void every_figure(trial *t, const replay *figures, size_t count)
{
    for (size_t i = 0; i < count; i++) {
        replay_figure(t, &figures[i], false);
        replay_figure(t, &figures[i], true);
    }
}

void replay_figures(trial *t)
{
    every_figure(t, compared, sizeof compared / sizeof *compared);
    every_figure(t, refused, sizeof refused / sizeof *refused);
    length_figures(t, BYTES(HEAD HOST "\x0A\x00" WRITE_A5));
    length_figures(t, BYTES("X"));
    length_figures(t, BYTES(HEAD "\x03"));
    for (int kind = 0; kind < 256; kind++)
        kind_figure(t, (uint8_t)kind);
}
