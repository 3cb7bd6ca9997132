/* What is recorded at the place of a difference, beside what is due there. */
#ifndef FOUND_H
#define FOUND_H

#include "walk.h"

/* The bytes that are recorded from the place on, where a walk stands. */
typedef struct {
    const walk *at;
    const uint8_t *bytes;
    size_t count; /* 0: the recording ends here */
    size_t place; /* in the device's bytes */
} found_reply;

/* The part of the flow in which a byte is due. */
part part_due(const found_reply *f);

/* Whether no byte is due at all. */
bool is_extra(const found_reply *f);

bool is_greeting(const uint8_t *bytes, size_t length);

/* Whether the recorded device greets, where uartboot would not. */
bool greets(const found_reply *f);

/* What 15 says in place of the byte that is due, and what another byte says in place of 15; NULL where it is no
   answer. */
const char *refusal_found(const found_reply *f);
const char *acceptance_found(const found_reply *f);

/* What the recorded byte means; NULL where there is nothing to say. */
const char *found_meaning(const found_reply *f);

#endif
