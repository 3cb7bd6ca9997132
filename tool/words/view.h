/* What the library says of a flash: the product header, both images, the slot that will start. */
#ifndef VIEW_H
#define VIEW_H

#include "files.h"
#include "text.h"
#include "undalisho.h"

/* Where the bootloader of the vendor's SDK expects the product header. */
enum { USUAL_HEADER = 0x1F000 };

typedef struct {
    const char *path;
    content flash;
    unsigned long header; /* the product header's offset, as it was given */
    und_product product;
    und_selected selected;
    uint32_t offsets[2];
    und_image images[2];         /* only where the product header is good */
    uint32_t next_id, next_slot; /* for the next image; only where a slot starts */
} flash_view;

/* Reads a flash file and the library's answers. Gives DONE, or the exit code after it has said what is wrong. */
int view_file(flash_view *v, const char *path, unsigned long header);

/* An image in a line: "id 9, version 1.9, 4096 bytes, valid". */
void add_image(text *t, const uint8_t *memory, const und_image *image);
void add_image_json(text *t, const uint8_t *memory, const und_image *image);

/* The table of images, and the slot that will start, on standard output; or why there is none. */
void print_images(const flash_view *v);
void print_verdict(const flash_view *v);

/* Where a slot starts, the id for the next image and its slot: "id 10, in slot 1". In the slot that starts now, that id
   may not do: 1 follows 0, and 255 in the other slot would be newer than 1. */
void add_next_id(text *t, const flash_view *v);
void print_next_id(const flash_view *v);

/* The same as JSON's names and values, without the braces around them. `code` is how the command ends where no slot
   starts. */
void add_view_json(text *t, const flash_view *v, int code);

#endif
