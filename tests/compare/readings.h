/* What headers say, compared on memories that other cases made. */
#ifndef READINGS_H
#define READINGS_H

#include "trial.h"

/* The library reads `lent`, the model the same bytes in `kept`. */
void same_image(trial *t, const uint8_t *lent, const uint8_t *kept, size_t length, uint32_t offset);
void same_product(trial *t, const uint8_t *lent, const uint8_t *kept, size_t length, uint32_t header);

#endif
