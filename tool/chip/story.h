/* A session told event by event: bytes of one part of the flow together, with what they mean. */
#ifndef STORY_H
#define STORY_H

#include "log.h"
#include "session.h"

typedef struct {
    event_log *log;
    const session *of;                /* whose memories payloads are judged by */
    uint32_t first[UND_RECORD_WORDS]; /* the record before the part's first byte */
    uint8_t *bytes;                   /* the part's bytes so far */
    size_t count;
    bool dropped;    /* they were dropped, and belong to no part */
    meaning refused; /* the last refusal */
    text what, next; /* its words, where they are made for it */
} story;

void story_begin(story *s, event_log *log, const session *of);

/* Bytes that a turn has taken or sent, with the record before and after it. */
void story_turn(story *s, const uint32_t before[UND_RECORD_WORDS], const uint32_t after[UND_RECORD_WORDS],
                const uint8_t *bytes, size_t count);

/* Nothing comes for now: tells bytes that were dropped. */
void story_rest(story *s);

/* The session is over, or starts anew: tells bytes of a part that has not ended. */
void story_end(story *s);

#endif
