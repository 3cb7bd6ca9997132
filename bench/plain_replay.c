/* A recorded visit in plain C: the host's entries go to the session as they are, and replies are compared as they
   come. */
#include "plain.h"

#include <string.h>

enum { ROOM = 1024 };

/* The entries of one kind, and how far they are used up. */
typedef struct {
    const uint8_t *next, *end; /* of the recording after the current entry */
    const uint8_t *at;         /* of that entry's bytes */
    size_t left;
    uint8_t kind;
} entries;

static size_t entry_length(const uint8_t *entry)
{
    return entry[1] + 256u * entry[2];
}

static uint32_t judge(const uint8_t *recording, size_t length)
{
    static const uint8_t head[UND_RECORDING_HEAD] = {'B', 'L', 'G', UND_RECORDING_VERSION, 0};
    const uint8_t *at = recording + UND_RECORDING_HEAD, *end = recording + length;
    if (length < 3 || memcmp(recording, head, 3) != 0)
        return 81;
    if (length < UND_RECORDING_HEAD || memcmp(recording, head, UND_RECORDING_HEAD) != 0)
        return 82;
    while (at < end) {
        size_t left = (size_t)(end - at);
        if (*at != UND_ENTRY_HOST && *at != UND_ENTRY_DEVICE)
            return 83;
        if (left < UND_ENTRY_HEAD || left - UND_ENTRY_HEAD < entry_length(at))
            return 84;
        at += UND_ENTRY_HEAD + entry_length(at);
    }
    return 0;
}

/* Whether there is another byte, of this entry or of a later one. */
static int has_more(entries *e)
{
    while (e->left == 0 && e->next < e->end) {
        size_t length = entry_length(e->next);
        e->at = e->next + UND_ENTRY_HEAD;
        e->left = *e->next == e->kind ? length : 0;
        e->next = e->at + length;
    }
    return e->left > 0;
}

/* How many replies the recorded bytes begin with. */
static size_t same_replies(entries *device, const uint8_t *replies, size_t count)
{
    size_t same = 0;
    while (same < count && has_more(device)) {
        size_t part = count - same < device->left ? count - same : device->left, i = 0;
        if (memcmp(replies + same, device->at, part) != 0) {
            while (replies[same + i] == device->at[i])
                i++;
            return same + i;
        }
        same += part;
        device->at += part;
        device->left -= part;
    }
    return same;
}

und_replayed plain_replay(const uint8_t *recording, size_t recording_len, uint8_t *ram, size_t ram_len, uint8_t *flash,
                          size_t flash_len, uint8_t *work, size_t work_len)
{
    const uint8_t *first = recording + UND_RECORDING_HEAD, *end = recording + recording_len;
    entries host = {first, end, first, 0, UND_ENTRY_HOST}, device = {first, end, first, 0, UND_ENTRY_DEVICE};
    uint8_t replies[ROOM];
    uint32_t record[8], number;
    size_t same = 0, sent = 0;
    und_report r;
    plain_uartboot_fresh(record);
    r = plain_uartboot_call(record, NULL, 0, NULL, 0, ram, ram_len, flash, flash_len, work, work_len);
    number = r.number ? r.number : judge(recording, recording_len);
    if (number)
        return (und_replayed){number, 0, 0};
    do {
        r = plain_uartboot_call(record, host.at, host.left, replies, ROOM, ram, ram_len, flash, flash_len, work,
                                work_len);
        host.at += r.taken;
        host.left -= r.taken;
        same += same == sent ? same_replies(&device, replies, r.sent) : 0;
        sent += r.sent;
    } while (r.standing == UND_WANTS_ROOM || (r.standing == UND_WANTS_BYTE && has_more(&host)));
    if (same < sent || has_more(&device))
        return (und_replayed){0, 0, same};
    return (und_replayed){0, 1, 0};
}
