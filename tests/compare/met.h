/* What a call to a session meets: noted before it is made, and counted once the model has accepted it. */
#ifndef MET_H
#define MET_H

#include "desk.h"
#include "seen.h"

enum { MOST_NOTES = 16 };

typedef struct {
    uint32_t before[WORDS]; /* the record as it was */
    bool executes;          /* its first byte leads to an execution that nothing refuses */
    int count;
    struct {
        seen_what what;
        uint32_t number;
    } notes[MOST_NOTES];
} meeting;

void note(meeting *met, seen_what what, uint32_t number);

meeting meeting_before(const desk *d, const uint8_t *input, size_t shown, size_t room);
void meeting_after(const meeting *met, const desk *d, const model_report *r);

#endif
