/* Waits for what the chip has to say in a load. Each routine gives DONE, or the exit code after it has said what ends
   the load. */
#ifndef AWAIT_H
#define AWAIT_H

#include "loading.h"

/* The greeting: what comes before it is passed over. */
int await_greeting(loading *l);

/* The answer to the header; where the chip greets afresh instead, the header goes out again. */
int await_answer(loading *l, uint8_t wanted);

/* The checksum, and nothing after it. */
int await_checksum(loading *l, uint8_t wanted);

#endif
