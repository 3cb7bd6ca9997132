/* Whether other bytes of RAM or flash, at the visit's beginning, explain what is recorded at the place of a
   difference. */
#ifndef CONTENTS_H
#define CONTENTS_H

#include "found.h"

/* Of a byte in the answer to Read, or to Read QSPI. */
bool other_ram_explains(const found_reply *f);
bool other_flash_explains(const found_reply *f);

/* Of a Direct write with verify that the device has refused, or accepted. */
bool used_flash_may_explain(const found_reply *f);
bool erased_flash_explains(const found_reply *f);

#endif
