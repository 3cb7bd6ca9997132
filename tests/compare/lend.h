/* Memory to lend: each shelf lies between two pages that nobody may touch, and bytes beside what is lent are
   watched. */
#ifndef LEND_H
#define LEND_H

#include <stdbool.h>
#include <stddef.h>
#include <stdint.h>

typedef struct {
    uint8_t *first, *end; /* all of it */
    uint8_t *lent;
    size_t length;
} shelf;

void shelf_build(shelf *s, size_t capacity);
/* `length` bytes, up to the shelf's last one or from its first one on. */
uint8_t *shelf_lend(shelf *s, size_t length, bool at_end);
/* Whether nothing was written beside what is lent. */
bool shelf_intact(const shelf *s);

#endif
