/* The caller writes to the work buffer between two calls. What was judged is judged again at execution, and CRCs and
   answers are those of what is there then. */
#include "figures.h"

#include <string.h>

typedef struct {
    const char *name;
    const char *host; /* what the first call is shown, with `room` bytes of room */
    size_t host_length, room;
    size_t place; /* what the caller writes */
    const char *written;
    size_t written_length;
    const char *then; /* what the second call is shown, and sends */
    size_t then_length;
    const char *device;
    size_t device_length;
    uint32_t phase, reason;
} alteration;

#define AMPLE 64
#define REFUSED BYTES("\x15" GREETING)
/* clang-format off */
#define WRITE_2 "\x01\x01\x06\x00" "\x00\x00\xFC\x07" "\x0A\x0B"
#define WRITE_2_NOT_WHOLE "\x01\x01\x06\x00" "\x00\x00"
#define ELSEWHERE "\x0E\x00\xFC\x07" "\xC0\xC1"
#define READ_2 "\x01\x02\x06\x00" "\x00\x00\xFC\x07" "\x02\x00"
#define COPY_2 "\x01\x03\x0A\x00" "\x00\x00\xFC\x07" "\x02\x00" "\x00\x00\x00\x00"
#define ERASE_1 "\x01\x04\x08\x00" "\x00\x00\x00\x00" "\x01\x00\x00\x00"
#define RUN_FIRST "\x01\x05\x04\x00" "\x00\x00\xFC\x07"
#define READ_FLASH_2 "\x01\x08\x06\x00" "\x00\x00\x00\x00" "\x02\x00"
#define STORE_FF "\x01\x12\x06\x00" "\x00" "\x00\x00\x00\x00" "\xFF"
#define VERSION "\x01\x0B\x00\x00"
/* clang-format on */

static const alteration alterations[] = {
    {"verify 2", BYTES(STORE_FF), AMPLE, 0, BYTES("\x02"), BYTES("\x06"), REFUSED, 1, 14},
    {"Read of none", BYTES(READ_2), AMPLE, 4, BYTES("\x00"), BYTES("\x06"), REFUSED, 1, 15},
    {"Copy of none", BYTES(COPY_2), AMPLE, 4, BYTES("\x00"), BYTES("\x06"), REFUSED, 1, 15},
    {"Erase of none", BYTES(ERASE_1), AMPLE, 4, BYTES("\x00"), BYTES("\x06"), REFUSED, 1, 15},
    {"Write past RAM", BYTES(WRITE_2), AMPLE, 0, BYTES("\x0F"), BYTES("\x06"), REFUSED, 1, 21},
    {"Copy past flash", BYTES(COPY_2), AMPLE, 6, BYTES("\xFF\x0F"), BYTES("\x06"), REFUSED, 1, 21},
    {"Erase past flash", BYTES(ERASE_1), AMPLE, 6, BYTES("\x01"), BYTES("\x06"), REFUSED, 1, 21},
    {"Run after RAM", BYTES(RUN_FIRST), AMPLE, 0, BYTES("\x10"), BYTES("\x06"), REFUSED, 1, 16},
    {"answer above W", BYTES(READ_FLASH_2), AMPLE, 4, BYTES("\x41"), BYTES("\x06"), REFUSED, 1, 17},
    {"verify that differs", BYTES(STORE_FF), AMPLE, 0, BYTES("\x01"), BYTES("\x06"), REFUSED, 1, 18},
    {"not acknowledged", BYTES(STORE_FF), AMPLE, 0, BYTES("\x02"), BYTES("\x15"), BYTES(GREETING), 1, 20},
    {"Run at another byte", BYTES(RUN_FIRST), AMPLE, 0, BYTES("\x0F"), BYTES("\x06"), BYTES(""), 19, 0},
    {"longer Read", BYTES(READ_2), AMPLE, 4, BYTES("\x03"), BYTES("\x06"), BYTES("\x03\x00"), 13, 0},
    {"payload not whole", BYTES(WRITE_2_NOT_WHOLE), AMPLE, 0, BYTES("\x10"), BYTES("\xFC\x07\x0A\x0B"), REFUSED, 1, 16},
    {"before the payload's CRC", BYTES(WRITE_2), 6, 4, BYTES("\xA0"), BYTES(""), BYTES("\xEA\xF7"), 10, 0},
    {"in the payload's CRC", BYTES(WRITE_2), 7, 4, BYTES("\xA0"), BYTES(""), BYTES("\xF7"), 10, 0},
    {"before the answer", BYTES(VERSION), AMPLE, 0, BYTES("\xFF"), BYTES("\x06\x92\x9E"),
     BYTES("\xFF.0.0.3\x06" GREETING), 1, 0},
    {"before the host's CRC", BYTES(VERSION "\x06"), AMPLE, 6, BYTES("4"), BYTES("\x6E\x62"), REFUSED, 1, 19},
    {"after the answer", BYTES(VERSION "\x06"), AMPLE, 7, BYTES("4"), BYTES("\x6E\x62"), BYTES("\x06" GREETING), 1, 0},
};

static void altered_figure(trial *t, desk *d, const alteration *a)
{
    setting s = setting_of(KIND_UARTBOOT, 16, SECTOR, 64);
    const uint8_t *reply;
    desk_set(t, d, &s);
    desk_call(t, d, (const uint8_t *)a->host, a->host_length, a->room, &reply);
    memcpy(d->library.work + a->place, a->written, a->written_length);
    memcpy(d->model.work + a->place, a->written, a->written_length);
    model_report got = desk_call(t, d, (const uint8_t *)a->then, a->then_length, AMPLE, &reply);
    bool same =
        got.taken == a->then_length && got.sent == a->device_length && memcmp(reply, a->device, a->device_length) == 0;
    if (!same || d->record[WORD_PHASE] != a->phase || d->record[WORD_REASON] != a->reason)
        differ(t, "figure: altered work buffer, %s", a->name);
}

/* None of these changes RAM or flash: what they store is refused, or not executed, or, as FF over F0, is what was
   there. A Write that is still good goes where the work buffer then says. */
void altered_figures(trial *t)
{
    static const alteration moved = {
        "Write elsewhere", BYTES(WRITE_2), AMPLE, 0, BYTES(ELSEWHERE), BYTES("\x06"), BYTES(GREETING), 1, 0,
    };
    uint8_t ram[16] = {0}, flash[SECTOR];
    desk d;
    memset(flash, 0xF0, sizeof flash);
    for (size_t i = 0; i < sizeof alterations / sizeof *alterations; i++) {
        altered_figure(t, &d, &alterations[i]);
        if (memcmp(d.library.flash, flash, sizeof flash) != 0 || memcmp(d.library.ram, ram, sizeof ram) != 0)
            differ(t, "figure: altered work buffer, %s has changed RAM or flash", alterations[i].name);
    }
    altered_figure(t, &d, &moved);
    memcpy(ram + 14, "\xC0\xC1", 2);
    if (memcmp(d.library.ram, ram, sizeof ram) != 0)
        differ(t, "figure: altered work buffer, RAM after a Write");
}
