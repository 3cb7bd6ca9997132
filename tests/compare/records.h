/* Given records: how they are drawn, and which of them a run has met. */
#ifndef RECORDS_H
#define RECORDS_H

#include "desk.h"

/* How many places a record's phase has: as many as it takes or sends bytes, and the place 0 where it takes and sends
   none. */
uint32_t places_of(const uint32_t record[WORDS], const model_request *request);

/* The phase in which code runs, or a host is done or ended, and whether a record has it. */
uint32_t last_phase_of(uint32_t kind);
bool is_over(const uint32_t record[WORDS]);

/* Words that are often a sound record of the setting's kind, and often nearly one. A command that is planned has its
   payload in the work buffer. */
void draw_record(trial *t, setting *s);

/* Whether the model accepts the setting's record. */
bool is_accepted(const setting *s);

/* Notes what is sound or unsound about the record: its place, kind and phase; of a session also opcode and length, and
   the address where code runs. */
void note_record(const setting *s);

#endif
