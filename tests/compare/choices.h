/* A case is made from a list of numbers, drawn from a seed or given. A shorter or smaller list makes a plainer case,
   so one rule shrinks cases of every kind. */
#ifndef CHOICES_H
#define CHOICES_H

#include <stdbool.h>
#include <stddef.h>
#include <stdint.h>

typedef struct {
    uint32_t *values;
    size_t count, capacity;
    size_t at;      /* the next one */
    uint64_t state; /* of the generator */
    bool given;     /* nothing is drawn: past the end every choice is 0 */
} choices;

void choices_from_seed(choices *c, uint64_t seed);
void choices_from_list(choices *c, const uint32_t *values, size_t count);
void choices_free(choices *c);

/* A number below n; 0 is the plainest. */
uint32_t pick(choices *c, uint32_t n);
/* True once in n times. */
bool once_in(choices *c, uint32_t n);
/* One of the numbers of a list. */
#define PICK_OF(c, list) ((list)[pick((c), sizeof(list) / sizeof *(list))])

/* Numbers that are no choices: contents of memories and data. */
uint64_t next_random(uint64_t *state);

#endif
