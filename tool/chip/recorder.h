/* Records sessions of uartboot, each in a file of its own; undalisho.h has the form, under "Recorded visits". */
#ifndef RECORDER_H
#define RECORDER_H

#include "log.h"
#include "name_lock.h"
#include "session.h"

/* Files of a player beside its recordings. */
enum { MOST_OTHERS = 5 };

typedef struct {
    const char *path;                /* of the first recording; later ones have a number after it. NULL: none is made */
    const char *others[MOST_OTHERS]; /* files whose place none may take; NULL: none */
    unsigned number;                 /* of the recording, from 1 on */
    text name;                       /* its path */
    name_lock first, later;          /* of the first path, held to the end, and of a later one that is recorded in */
    bool open;                       /* a session is being recorded */
    int fd;
    size_t length; /* of the file */
    bool failed;   /* this session's recording could not be written; the next one tries anew */
} recorder;

/* Locks the first path. On failure errno says why; EBUSY: another player records there. */
bool recorder_open(recorder *r);
void recorder_close(recorder *r);

/* Adds bytes that the session took, and then all that it replies to them, at most UND_ENTRY_MAX bytes of each. They are
   written at once: whenever the program is killed, the file has the replies to all bytes of the host that are in it, or
   is refused for an entry that is cut short. The first call for a session, with its greeting, makes the file, once the
   memories with which a replay doesn't begin by itself are kept beside it, and older files of these names are gone;
   then the command that replays it is said. */
void recorder_add(recorder *r, const session *of, event_log *log, content taken, content replies);

/* The session is over: the next one gets a new recording. Where another program has taken this one's name, that is
   said. */
void recorder_end(recorder *r, event_log *log);

#endif
