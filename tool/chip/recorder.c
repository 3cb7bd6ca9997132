#include "recorder.h"

#include "files.h"
#include "lock.h"
#include "memories.h"
#include "memory.h"
#include "recording.h"

#include <errno.h>
#include <fcntl.h>
#include <stdlib.h>
#include <string.h>
#include <unistd.h>

/* A write of a program that is killed may end early, but only between pages; their size is a multiple of this. */
enum { BLOCK = 512 };

static bool is_others(const recorder *r, const char *path)
{
    bool same = false;
    for (int i = 0; i < MOST_OTHERS && !same; i++)
        same = r->others[i] && is_same_file(r->others[i], path);
    return same;
}

/* Whether the player uses a file already, or another program does. The player's own come first: a look at the lock of
   one would give it up. */
static bool is_taken(const recorder *r, const char *path)
{
    return is_others(r, path) || (!can_start_file(path) && errno == EBUSY);
}

/* The first name is locked already. */
static bool is_locked(recorder *r)
{
    if (r->number > 1)
        return !name_lock_take(&r->later, r->name.chars) && errno == EBUSY;
    return false;
}

static bool is_beside_taken(const recorder *r, text path)
{
    bool taken = is_taken(r, path.chars) || is_name_locked(path.chars);
    text_free(&path);
    return taken;
}

static bool is_free(recorder *r)
{
    const char *name = r->name.chars;
    return !is_taken(r, name) && !is_beside_taken(r, recorded_ram(name)) && !is_beside_taken(r, recorded_work(name)) &&
           !is_beside_taken(r, recorded_flash(name)) && may_record_in(name) && !is_locked(r);
}

/* The next number whose files take the place of none in use. On failure errno says why its name can't be locked. */
static bool choose_name(recorder *r)
{
    do {
        text_free(&r->name);
        text_add(&r->name, "%s", r->path);
        if (++r->number > 1)
            text_add(&r->name, ".%u", r->number);
    } while (!is_free(r));
    return r->number == 1 || r->later.path;
}

static bool is_all(content c, uint8_t byte)
{
    size_t same = 0;
    while (same < c.length && c.bytes[same] == byte)
        same++;
    return same == c.length;
}

/* Whether a replay begins with this RAM, work buffer or flash only if that is stated. */
static bool keeps_ram(const session *of)
{
    return of->ram.length != UND_RAM_MAX || !is_all(of->ram, 0);
}

/* No reply depends on its bytes. */
static bool keeps_work(const session *of)
{
    return of->work.length != UND_WORK_MAX;
}

static bool keeps_flash(const session *of)
{
    return of->flash.length != USUAL_FLASH || !is_all(of->flash, UND_FLASH_BLANK);
}

/* Says, for the reason in errno, that a file of the recording could not be written. Gives false. */
static bool fail_recording(recorder *r, event_log *log, const char *path)
{
    log_loss(log, "not-recorded", "recording", path);
    r->failed = true;
    return false;
}

static bool keep(recorder *r, event_log *log, text path, content memory)
{
    bool kept = write_file(path.chars, memory.bytes, memory.length) || fail_recording(r, log, path.chars);
    text_free(&path);
    return kept;
}

/* Removes an older file. It is none of the player's others: see choose_name. */
static bool drop(recorder *r, event_log *log, text path)
{
    bool dropped = !is_regular(path.chars) || unlink(path.chars) == 0 || fail_recording(r, log, path.chars);
    text_free(&path);
    return dropped;
}

/* Older memories that have no successor go first: they may give the others room. */
static bool keep_memories(recorder *r, const session *of, event_log *log)
{
    const char *name = r->name.chars;
    return (keeps_ram(of) || drop(r, log, recorded_ram(name))) &&
           (keeps_work(of) || drop(r, log, recorded_work(name))) &&
           (keeps_flash(of) || drop(r, log, recorded_flash(name))) &&
           (!keeps_ram(of) || keep(r, log, recorded_ram(name), of->ram)) &&
           (!keeps_work(of) || keep(r, log, recorded_work(name), of->work)) &&
           (!keeps_flash(of) || keep(r, log, recorded_flash(name), of->flash));
}

static void add_file(text *command, const char *option, text path)
{
    text_add(command, " %s ", option);
    text_add_path(command, path.chars);
    text_free(&path);
}

/* The command that replays a recording. */
static text command_for(const char *name, const session *of)
{
    text command = {0};
    text_add(&command, "undalisho replay ");
    text_add_path(&command, name);
    if (keeps_ram(of))
        add_file(&command, "--ram-from", recorded_ram(name));
    if (keeps_work(of))
        text_add(&command, " --work %zu", of->work.length);
    if (keeps_flash(of))
        add_file(&command, "--flash", recorded_flash(name));
    return command;
}

static uint8_t *put(uint8_t *at, const void *bytes, size_t count)
{
    if (count > 0)
        memcpy(at, bytes, count);
    return at + count;
}

static uint8_t *put_entry(uint8_t *at, uint8_t kind, content c)
{
    const uint8_t head[UND_ENTRY_HEAD] = {kind, (uint8_t)c.length, (uint8_t)(c.length >> 8)};
    return put(put(at, head, sizeof head), c.bytes, c.length);
}

/* Entries for bytes that were taken and for the replies to them. A file that ends between the two replays as different,
   so no write may end early there: an empty entry before them moves that place on. */
static uint8_t *put_burst(uint8_t *at, size_t length, content taken, content replies)
{
    if (taken.length > 0 && (length + UND_ENTRY_HEAD + taken.length) % BLOCK == 0)
        at = put_entry(at, UND_ENTRY_HOST, (content){NULL, 0});
    if (taken.length > 0)
        at = put_entry(at, UND_ENTRY_HOST, taken);
    return replies.length > 0 ? put_entry(at, UND_ENTRY_DEVICE, replies) : at;
}

/* Even with --quiet. */
static void tell_begun(const recorder *r, const session *of, event_log *log)
{
    text command = command_for(r->name.chars, of), words = {0}, fields = {0};
    text_add(&words, "recording in %s; replay it with: %s", r->name.chars, command.chars);
    text_add_json_word(&fields, "command", command.chars);
    log_event(
        log,
        &(event){.name = "recording", .words = words.chars, .path = r->name.chars, .fields = &fields, .loud = true});
    text_free(&command);
    text_free(&words);
    text_free(&fields);
}

/* Makes the file with its first bytes. An older one goes before its memories do, and the new one comes after its own:
   so none is ever beside those of another visit. */
static bool begin(recorder *r, const session *of, event_log *log, content first)
{
    file_place place;
    if (!choose_name(r) || !clear_place(&place, r->name.chars))
        return fail_recording(r, log, r->name.chars);
    if (!keep_memories(r, of, log)) {
        free_place(&place);
        return false;
    }
    r->fd = fill_place(&place, first.bytes, first.length);
    r->open = r->fd >= 0;
    if (!r->open || fcntl(r->fd, F_SETFL, O_APPEND) != 0)
        return fail_recording(r, log, r->name.chars);
    tell_begun(r, of, log);
    return true;
}

/* Where only some of the bytes could be written, these are taken back. */
static bool append(recorder *r, event_log *log, content more)
{
    if (write_all(r->fd, more.bytes, more.length))
        return true;
    int reason = errno;
    if (ftruncate(r->fd, (off_t)r->length) != 0) {
        /* then an entry is cut short, and a replay says so */
    }
    errno = reason;
    return fail_recording(r, log, r->name.chars);
}

bool recorder_open(recorder *r)
{
    return name_lock_take(&r->first, r->path);
}

void recorder_close(recorder *r)
{
    name_lock_release(&r->first);
}

void recorder_add(recorder *r, const session *of, event_log *log, content taken, content replies)
{
    if (!r->path || r->failed || of->record[UND_RECORD_KIND] != UND_KIND_UARTBOOT)
        return;
    size_t most = UND_RECORDING_HEAD + 3 * UND_ENTRY_HEAD + taken.length + replies.length;
    content bytes = {memory_of(most), 0};
    uint8_t *at = r->open ? bytes.bytes : put(bytes.bytes, recording_head, UND_RECORDING_HEAD);
    bytes.length = (size_t)(put_burst(at, r->length, taken, replies) - bytes.bytes);
    if (r->open ? append(r, log, bytes) : begin(r, of, log, bytes))
        r->length += bytes.length;
    free(bytes.bytes);
}

void recorder_end(recorder *r, event_log *log)
{
    bool gone = r->open && !r->failed && !is_named(r->fd, r->name.chars);
    if (gone)
        log_gone(log, "not-recorded", "recording", r->name.chars);
    if (r->open && close(r->fd) != 0 && !gone && !r->failed)
        fail_recording(r, log, r->name.chars);
    r->open = r->failed = false;
    r->length = 0;
    name_lock_release(&r->later);
}
