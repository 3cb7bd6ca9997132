/* What undalisho.h says of a tray of versions, asked of the library: lengths, entries, what is written. */
#include "hold.h"
#include "undalisho.h"

#include <string.h>

enum { ONE_MORE = UND_TRAY_MAX + 1, UNWRITTEN = 99999 };

/* Room for a field and an entry more than a tray has, and for a byte before the fields. */
static uint8_t bytes[1 + ONE_MORE * UND_VERSION_FIELD], *const fields = bytes + 1;
static uint32_t ranks[ONE_MORE * UND_TRAY_ENTRY];

/* All fields are "1"; no number of the room is one that the library writes. */
static void begin(void)
{
    memset(bytes, 0, sizeof bytes);
    for (size_t i = 0; i < ONE_MORE; i++)
        fields[i * UND_VERSION_FIELD] = '1';
    for (size_t i = 0; i < ONE_MORE * UND_TRAY_ENTRY; i++)
        ranks[i] = UNWRITTEN;
}

/* Whether the room keeps its contents from this number on. */
static int keeps_from(size_t first)
{
    while (first < ONE_MORE * UND_TRAY_ENTRY && ranks[first] == UNWRITTEN)
        first++;
    return first == ONE_MORE * UND_TRAY_ENTRY;
}

/* Whether a call with these lengths has this number and writes nothing. */
static int refuses(uint32_t number, size_t fields_len, size_t ranks_len)
{
    return und_rank_tray(fields, fields_len, ranks, ranks_len) == number && keeps_from(0);
}

/* Each size is named in its claim, so that what is not so says which one is wrong. */
static void lengths(void)
{
    const size_t all = sizeof ranks / sizeof *ranks;

    begin();
    HOLD(refuses(64, 1, all) && refuses(64, UND_VERSION_FIELD - 1, all) && refuses(64, UND_VERSION_FIELD + 1, all));
    HOLD(refuses(64, (UND_TRAY_MAX + 1) * UND_VERSION_FIELD, all));
    HOLD(refuses(65, UND_VERSION_FIELD, UND_TRAY_ENTRY - 1));
    HOLD(refuses(65, UND_TRAY_MAX * UND_VERSION_FIELD, UND_TRAY_MAX * UND_TRAY_ENTRY - 1));
    HOLD(und_rank_tray(fields, UND_VERSION_FIELD, ranks, UND_TRAY_ENTRY) == 0 && keeps_from(UND_TRAY_ENTRY));
    HOLD(und_rank_tray(fields, UND_TRAY_MAX * UND_VERSION_FIELD, ranks, UND_TRAY_MAX * UND_TRAY_ENTRY) == 0);
    HOLD(keeps_from(UND_TRAY_MAX * UND_TRAY_ENTRY));
}

static void order_of_refusals(void)
{
    begin();
    HOLD(refuses(64, UND_VERSION_FIELD + 1, 0) && refuses(64, (UND_TRAY_MAX + 1) * UND_VERSION_FIELD, 0));
}

/* Whether the entry of a field is what und_rank gives for it. */
static int is_entry(size_t index)
{
    const uint32_t *entry = ranks + index * UND_TRAY_ENTRY;
    und_ranked alone = und_rank(fields + index * UND_VERSION_FIELD, UND_VERSION_FIELD);

    return memcmp(entry, alone.rank, sizeof alone.rank) == 0 && entry[UND_RANK_NUMBERS] == alone.number;
}

/* A malformed field has its entry, and so have those after it; room past the entries stays. */
static void entries(void)
{
    begin();
    memcpy(fields, "1.2.3.4", 7);
    memcpy(fields + UND_VERSION_FIELD, "01", 2);
    memcpy(fields + 2 * UND_VERSION_FIELD, "65535.65535.6553", 16);
    HOLD(und_rank_tray(fields, 3 * UND_VERSION_FIELD, ranks, 3 * UND_TRAY_ENTRY + 1) == 0);
    HOLD(is_entry(0) && ranks[0] == 1 && ranks[3] == 4 && ranks[UND_RANK_NUMBERS] == 0);
    HOLD(is_entry(1) && ranks[UND_TRAY_ENTRY] == 0 && ranks[UND_TRAY_ENTRY + UND_RANK_NUMBERS] == 61);
    HOLD(is_entry(2) && ranks[2 * UND_TRAY_ENTRY] == 65535 && keeps_from(3 * UND_TRAY_ENTRY));
}

static void no_fields(void)
{
    begin();
    HOLD(und_rank_tray(NULL, 0, ranks, UND_TRAY_ENTRY) == 0 && keeps_from(0));
}

int main(void)
{
    lengths();
    order_of_refusals();
    entries();
    no_fields();
    return wrong;
}
