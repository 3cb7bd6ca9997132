/* A replay: a recorded visit, the memories that were stated for it, the library's answer, and how that is told. */
#ifndef REPLAY_H
#define REPLAY_H

#include "recorded.h"
#include "session.h"
#include "text.h"

typedef struct {
    recorded visit;
    session memories;                  /* as the visit found them; nothing writes them */
    const char *ram_file, *flash_file; /* whose bytes they have; NULL: zeros, or blank ones */
    bool has_ram_length;               /* so many zeros were asked for */
    text stated;                       /* the memories in words */
    und_replayed answer;
    size_t ram_length, work_length; /* as they were asked for; the memories may be shorter where these are too long */
} replay;

/* Asks the library, which is lent copies. */
void replay_ask(replay *r);

/* Says how it went, in words or as JSON. Each gives the exit code. */
int tell_equal(const replay *r);
int tell_different(const replay *r);
int tell_refused(const replay *r);

/* The beginning of an object: the library's answer up to the place, and the memories. */
void add_answer_json(text *t, const replay *r);

/* How many entries there are, and how many bytes each end has sent. */
typedef struct {
    size_t entries, host, device;
} recorded_counts;

recorded_counts counts_of(const replay *r);
void add_counts_json(text *t, const replay *r);

#endif
