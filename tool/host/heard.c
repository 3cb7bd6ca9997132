#include "heard.h"

#include "clock.h"

#include <string.h>

void heard_begin(heard *h, int settles)
{
    *h = (heard){.settles = settles};
    h->uartboot_length = session_greeting(UND_KIND_UARTBOOT, h->uartboot);
}

bool heard_uartboot(const heard *h)
{
    size_t length = h->uartboot_length;
    return memcmp(h->last + MOST_GREETING - length, h->uartboot, length) == 0;
}

bool heard_greeting(const heard *h)
{
    return h->last[MOST_GREETING - 1] == UND_LINE_GREETING;
}

/* load does not wait until a chip that greets again and again is quiet. uartboot's greeting may be older than a reset,
   and the boot ROM's may follow. */
void hear(heard *h, uint8_t byte)
{
    bool again = heard_greeting(h) && byte == UND_LINE_GREETING;
    if (h->count < HEARD_SHOWN)
        h->first[h->count] = byte;
    h->count++;
    memmove(h->last, h->last + 1, MOST_GREETING - 1);
    h->last[MOST_GREETING - 1] = byte;
    h->met_uartboot = h->met_uartboot || heard_uartboot(h);
    if (!again)
        h->settled = milliseconds_now() + (heard_uartboot(h) ? GREETS_WITHIN : h->settles);
}

void heard_forget(heard *h)
{
    h->count = 0;
}

void heard_add_first(text *t, const heard *h)
{
    bool whole = h->count <= HEARD_SHOWN;
    text_add_hex(t, h->first, whole ? h->count : HEARD_SHOWN, " ");
    text_add(t, whole ? "" : " ..");
}
