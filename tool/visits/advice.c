#include "advice.h"

#include "contents.h"
#include "due.h"
#include "lengths.h"

static const char after_reset[] =
    "the device may have been reset here: a recording holds one visit, so record from the reset on by itself";

static const char *advice_on_extra(const found_reply *f)
{
    if (part_due(f) == RUNNING)
        return "bytes after code runs may be the code's own: leave them out; if they are uartboot's, it did not run "
               "the code";
    if (greets(f))
        return after_reset;
    return "see that the recording has all bytes of the host: the device answers what is not in it";
}

static const char no_lengths[] =
    "no length that a memory may have explains this: bytes of the host, here or before, may be missing or damaged; see "
    "that the recording has all of them, and look at the cable";

static const char no_flash[] =
    "the flash that the visit found does not seem to explain this: the device did not keep these bytes, or bytes of "
    "the host are missing or damaged";

static const char *advice_on_refused(const found_reply *f)
{
    const walk *w = f->at;
    bool verifies = w->acked && asked_for(w).verify == 1;
    switch (part_due(f)) {
    case HEADER_ANSWER: return "the device's uartboot may lack this command, or bytes were damaged on the line";
    case CHECKSUM: return no_lengths;
    case ANSWER_END: return "bytes may have been damaged on the line: look at cable and baud rate";
    default:
        return !verifies                   ? "uartboot does not refuse this command: see which one was loaded"
               : used_flash_may_explain(f) ? "the device's flash may have held other bytes: state it, as the visit "
                                             "found it, with --flash"
                                           : no_flash;
    }
}

static const char *advice_on_accepted(const found_reply *f)
{
    switch (f->at->session.record[UND_RECORD_REASON]) {
    case UND_LONG_PAYLOAD:
    case UND_LONG_ANSWER:
    case UND_OUTSIDE_MEMORY:
    case UND_PAST_END: return no_lengths;
    case UND_VERIFY_DIFFERS:
        return erased_flash_explains(f)
                   ? "the device's flash may have been erased there: state it, as the visit found it, with --flash"
                   : no_flash;
    default: return "uartboot refuses this whatever its memories are: see which one was loaded";
    }
}

static const char *advice_on_answer(const found_reply *f)
{
    switch (opcode_of(f->at)) {
    case UND_OP_READ:
        if (!other_ram_explains(f))
            return "the visit has stored or read this byte before: the device did not keep or send it as it came; look "
                   "at the cable";
        return "state the RAM, as the visit found it, with --ram-from; if that is done, the device did not keep or "
               "send this byte";
    case UND_OP_READ_QSPI:
        if (!other_flash_explains(f))
            return "the visit has stored, erased or read this byte before: the device did not keep or send it as it "
                   "came; look at the cable";
        return "state the flash, as the visit found it, with --flash; if that is done, the device did not keep or "
               "send this byte";
    default: return "another version of uartboot may answer so: see which one was loaded";
    }
}

static const char *advice_on_first_greeting(const found_reply *f)
{
    uint8_t first[MOST_GREETING];
    stream host = stream_of(f->at->host.file, UND_ENTRY_HOST);
    if (is_greeting(first, stream_take(&host, first, sizeof first)))
        return "the host's bytes begin with a greeting: host and device may have been taken for each other";
    return "see that the recording begins at the greeting, and which uartboot was loaded";
}

static const char *advice_on(const found_reply *f)
{
    if (f->count == 0)
        return "see that all of the recording is there; if it is, the device fell silent here";
    if (is_extra(f))
        return advice_on_extra(f);
    if (acceptance_found(f))
        return advice_on_accepted(f);
    if (refusal_found(f))
        return advice_on_refused(f);
    if (greets(f))
        return after_reset;
    if (part_due(f) == GREETING && f->at->commands == 0)
        return advice_on_first_greeting(f);
    if (part_due(f) == ANSWER)
        return advice_on_answer(f);
    if (part_due(f) == CHECKSUM && f->at->in_part > 0)
        return "the device took other bytes than the host sent, or its CRC-16 was damaged: look at the cable";
    return "look at cable and baud rate, and see that the recording has all bytes of the host";
}

/* Where memories of other lengths explain it. */
static bool add_lengths(text *t, const found_reply *f)
{
    if (f->count == 0)
        return false;
    if (acceptance_found(f))
        return add_longer(t, f);
    if (!refusal_found(f) || !add_shorter(t, f))
        return false;
    text_add(t, part_due(f) == HEADER_ANSWER ? "; or its uartboot lacks this command" : "");
    return true;
}

void add_advice(text *t, const found_reply *f)
{
    if (!add_lengths(t, f))
        text_add(t, "%s", advice_on(f));
}
