#include "contents.h"

#include "due.h"
#include "otherwise.h"

#include <string.h>

bool other_ram_explains(const found_reply *f)
{
    session s = copies_of(f->at->lent);
    s.ram.bytes[ram_place(f->at)] = f->bytes[0];
    return explains(s, f);
}

/* A store can only clear bits: if any byte there explains the recorded one, that one itself does. */
bool other_flash_explains(const found_reply *f)
{
    session s = copies_of(f->at->lent);
    s.flash.bytes[flash_place(f->at)] = f->bytes[0];
    return explains(s, f);
}

/* Zeros are what verify finds different first. Where they make a difference before the place, the visit has read some
   of these bytes, and the others are left. */
bool used_flash_may_explain(const found_reply *f)
{
    session s = copies_of(f->at->lent);
    und_command c = asked_for(f->at);
    memset(s.flash.bytes + c.offset, 0, c.count);
    return place_with(s, f) != f->place;
}

/* Only bytes that are not stored as they were sent have to be others. */
bool erased_flash_explains(const found_reply *f)
{
    session s = copies_of(f->at->lent);
    und_command c = asked_for(f->at);
    const uint8_t *data = f->at->payload.bytes + f->at->payload.length - c.count;
    const uint8_t *stored = f->at->session.flash.bytes + c.offset;
    for (uint32_t i = 0; i < c.count; i++)
        if (stored[i] != data[i])
            s.flash.bytes[c.offset + i] |= data[i];
    return explains(s, f);
}
