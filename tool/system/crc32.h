/* The CRC-32 of a file's bytes, by which people tell files apart. */
#ifndef CRC32_H
#define CRC32_H

#include "files.h"

uint32_t crc32_of(content c);

#endif
