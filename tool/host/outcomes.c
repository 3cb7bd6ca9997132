#include "outcomes.h"

#include "signals.h"

/* What is due in each phase that takes, as undalisho.h has the phases of a host. */
static const char *const due[] = {
    [0] = "the greeting",
    [2] = "the answer to the header",
    [4] = "the answer to the payload",
    [5] = "the payload's CRC",
    [6] = "the payload's CRC",
    [9] = "the answer's length",
    [10] = "the answer's length",
    [12] = "the answer",
    [15] = "the answer to the answer's CRC",
    [16] = "the greeting after the command",
};

static const char *const check_line =
    "look at power, cable and baud rate; reset the monitor, load uartboot again, then send the command again";
static const char *const reset_first = "reset the monitor, load uartboot again, then send the command again";

static const char *name_of(const commanding *c)
{
    return opcode_name(c->now->opcode);
}

/* A device carries a command out once its payload is acknowledged, or at the header where there is none. */
static const char *effect_of(const commanding *c)
{
    uint32_t phase = c->before[UND_RECORD_PHASE], last = c->now->payload.length ? TAKES_CRC_HIGH : 0;
    bool refused = c->record[UND_RECORD_REASON] == UND_DEVICE_REFUSED && phase <= TAKES_HEADER_ACK;
    return phase <= last || phase == SENDS_NAK || refused ? "it was not carried out" : "it may have been carried out";
}

void tell_sent(commanding *c, const uint8_t *header, size_t length)
{
    const content *payload = &c->now->payload;
    text t = {0};
    text_add(&t, "%s%s", name_of(c), payload->length ? ": " : "");
    add_payload(&t, c->now->opcode, payload->bytes, payload->length);
    log_event(&c->log,
              &(event){.from = FROM_HOST, .name = "command", .bytes = header, .count = length, .words = t.chars});
    text_free(&t);
}

static void tell_done(commanding *c)
{
    const uartboot_command *now = c->now;
    const uint8_t ack = UND_LINE_ACK;
    event e = {.from = FROM_CHIP, .name = "done", .bytes = &c->shown, .count = 1};
    text t = {0};
    text_add(&t, "%s is done", name_of(c));
    if (now->answered) {
        e.bytes = now->answer.bytes;
        e.count = now->answered;
        text_add(&t, ", with an answer of ");
        add_count(&t, now->answered);
    } else if (now->opcode == UND_OP_RUN) {
        e.from = FROM_HOST;
        e.bytes = &ack;
        text_add(&t, ": code runs");
    } else {
        text_add(&t, ": the device greets again");
    }
    if (now->opcode == UND_OP_VERSION) {
        text_add(&t, ": ");
        text_add_json(&t, (const char *)now->answer.bytes, now->answered);
    }
    e.words = t.chars;
    log_event(&c->log, &e);
    text_free(&t);
}

/* What came in place of what is due. */
static void add_came(text *t, const commanding *c)
{
    uint32_t phase = c->before[UND_RECORD_PHASE];
    if (phase == SENDS_NAK)
        text_add(t, "the bench has answered %02X", UND_LINE_NAK);
    else if (phase == TAKES_LENGTH_HIGH)
        text_add(t, "%u came for the answer's length", c->before[UND_RECORD_HELD] + 256u * c->shown);
    else
        text_add(t, "%02X came where %s is due", c->shown, due[phase]);
}

int tell_outcome(commanding *c)
{
    uint32_t reason = c->record[UND_RECORD_REASON];
    if (reason == 0) {
        tell_done(c);
        return DONE;
    }
    text t = {0};
    add_came(&t, c);
    int code = refuse(reason, "%s: %s; %s", name_of(c), t.chars, effect_of(c));
    text_free(&t);
    return code;
}

int end_refused(const commanding *c, uint32_t number)
{
    const uartboot_command *now = c->now;
    return refuse(number, "opcode %02X, payload length %zu, room for an answer %zu", now->opcode, now->payload.length,
                  now->answer.length);
}

int end_silent(const commanding *c)
{
    return end_with(SILENT, check_line, "silent: %s did not come from %s for %lu second%s (%s: %s)",
                    due[c->record[UND_RECORD_PHASE]], c->line.path, c->seconds, c->seconds == 1 ? "" : "s", name_of(c),
                    effect_of(c));
}

int end_blocked(const commanding *c)
{
    return end_with(SILENT, check_line, "silent: %s has taken no more bytes for %lu second%s (%s: %s)", c->line.path,
                    c->seconds, c->seconds == 1 ? "" : "s", name_of(c), effect_of(c));
}

int end_by_line(const commanding *c, line_event happened)
{
    if (happened == LINE_GONE)
        return fail(check_line, "%s has hung up (%s: %s)", c->line.path, name_of(c), effect_of(c));
    if (happened == LINE_SIGNALLED && signals_stop())
        return end_with(STOPPED, reset_first, "stopped by the user (%s: %s)", name_of(c), effect_of(c));
    return DONE;
}
