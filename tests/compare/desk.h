/* A session, or a host, twice: the library's on lent memory, and the model's. Each call goes to both, and everything is
   compared. */
#ifndef DESK_H
#define DESK_H

#include "model.h"
#include "trial.h"

/* What a session starts with. The contents stay; a desk has copies. */
typedef struct {
    uint32_t kind;
    model_memories contents;
    model_request request; /* a host's command */
    uint32_t record[WORDS];
    bool fresh; /* the record is a fresh one */
} setting;

typedef struct {
    uint32_t kind;
    model_memories library, model;
    model_request library_request, request; /* a host's command; the second is the model's */
    uint32_t *record;                       /* the library's */
    uint32_t model_record[WORDS];
    bool fresh;         /* it began at a fresh record */
    bool at_end;        /* where on its shelf memory is lent */
    bool null_if_empty; /* what is empty is lent as NULL */
} desk;

/* A session and a host can be called in turns; two sessions can't. */
void desk_set(trial *t, desk *d, const setting *s);
/* Shows `shown` bytes to both sessions and gives room for `room` bytes. Report and reply are the library's; the reply
   stays where it is until the next call. */
model_report desk_call(trial *t, desk *d, const uint8_t *input, size_t shown, size_t room, const uint8_t **reply);

/* How the library is lent bytes: NULL for none, where the desk does so. */
uint8_t *lent_or_null(const desk *d, uint8_t *bytes, size_t length);
/* Library and model have the same in their memories, and nothing beside them was written. */
void same_memories(trial *t, const desk *d);

/* The model's session, or host, of a kind. */
model_report call_model(uint32_t kind, uint32_t record[WORDS], model_line *line, const model_request *request,
                        const model_memories *memories);

/* Memory for contents, as long as any length that is tried. One set for each use. */
enum { FIRST_CONTENTS, LEAD_CONTENTS, EXPECTED_CONTENTS, CONTENTS };
model_memories contents_of(int use, size_t ram_length, size_t flash_length, size_t work_length);
void copy_contents(model_memories *to, const model_memories *from);

#endif
