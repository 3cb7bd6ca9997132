/* Dual images: which are valid, which slot starts, which of two files is offered. */
#include "little.h"
#include "model.h"

typedef struct {
    bool valid;
    uint8_t id;
    uint32_t size;
    const uint8_t *version;
} image;

static image image_at(const uint8_t *memory, size_t memory_length, int64_t offset)
{
    int64_t length = (int64_t)memory_length;
    image none = {false, 0, 0, NULL};
    if (offset + IMAGE_HEADER > length)
        return none;
    const uint8_t *header = memory + offset;
    int64_t size = little(header + 4, 4);
    bool marked = header[0] == 0x70 && header[1] == 0x51 && header[2] == 0xAA && header[32] == 0;
    if (!marked || size < 1 || size > MOST_CODE || offset + IMAGE_HEADER + size > length)
        return none;
    if (model_crc32(header + IMAGE_HEADER, (size_t)size) != little(header + 8, 4))
        return none;
    return (image){true, header[3], (uint32_t)size, header + 12};
}

bool model_flash_length(size_t length)
{
    return length != 0 && length % SECTOR == 0 && length <= MOST_FLASH;
}

/* 255 is followed by 0, so of these two 0 is the newer; all other ids go by size. */
static bool is_newer(uint8_t id, uint8_t than)
{
    if (id == 0 && than == 255)
        return true;
    if (id == 255 && than == 0)
        return false;
    return id > than;
}

uint8_t model_next_id(uint8_t id)
{
    return id == 255 ? 0 : (uint8_t)(id + 1);
}

model_selected model_select(const uint8_t *flash, size_t length, uint32_t header)
{
    if (!model_flash_length(length))
        return (model_selected){3, 0};
    if ((uint64_t)header + PRODUCT_HEADER > length)
        return (model_selected){51, 0};
    const uint8_t *product = flash + header;
    if (product[0] != 0x70 || product[1] != 0x52)
        return (model_selected){52, 0};
    image first = image_at(flash, length, little(product + 4, 4));
    image second = image_at(flash, length, little(product + 8, 4));
    if (!first.valid && !second.valid)
        return (model_selected){53, 0};
    if (!first.valid || (second.valid && is_newer(second.id, first.id)))
        return (model_selected){0, 2};
    return (model_selected){0, 1};
}

model_offered model_offer(const uint8_t *installed, size_t installed_length, const uint8_t *candidate,
                          size_t candidate_length)
{
    image old = image_at(installed, installed_length, 0);
    if (!old.valid)
        return (model_offered){62, 0, 0, 0};
    image new = image_at(candidate, candidate_length, 0);
    if (!new.valid)
        return (model_offered){63, 0, 0, 0};
    model_ordered compared = model_order(new.version, VERSION_FIELD, old.version, VERSION_FIELD);
    if (compared.number)
        return (model_offered){compared.number, 0, 0, 0};
    if (compared.order > 0)
        return (model_offered){0, 2, IMAGE_HEADER, new.size};
    return (model_offered){0, 1, IMAGE_HEADER, old.size};
}
