/* What image headers, product headers and commands say. */
#include "little.h"
#include "model.h"

/* The rules in their order; the header lies in the memory. */
static uint32_t broken_rule(const uint8_t *header, int64_t room)
{
    int64_t size = little(header + 4, 4);
    if (header[0] != 0x70 || header[1] != 0x51)
        return 2;
    if (header[2] != 0xAA)
        return 3;
    if (size < 1 || size > MOST_CODE)
        return 4;
    if (IMAGE_HEADER + size > room)
        return 5;
    if (header[32] != 0)
        return 6;
    return model_crc32(header + IMAGE_HEADER, (size_t)size) == little(header + 8, 4) ? 0 : 7;
}

model_image model_read_image(const uint8_t *memory, size_t length, uint32_t offset)
{
    int64_t room = (int64_t)length - (int64_t)offset;
    if (room < IMAGE_HEADER)
        return (model_image){1, 0, 0, 0, 0};
    const uint8_t *header = memory + offset;
    return (model_image){
        broken_rule(header, room), header[3], (uint32_t)little(header + 4, 4), (size_t)offset + 12, (size_t)offset + 64,
    };
}

model_product model_read_product(const uint8_t *flash, size_t length, uint32_t header)
{
    if (length < SECTOR || length > MOST_FLASH || length & (SECTOR - 1))
        return (model_product){3, 0, 0};
    int64_t room = (int64_t)length - (int64_t)header;
    if (room < PRODUCT_HEADER)
        return (model_product){51, 0, 0};
    const uint8_t *product = flash + header;
    if (little(product, 2) != 0x5270)
        return (model_product){52, 0, 0};
    return (model_product){0, (uint32_t)little(product + 4, 4), (uint32_t)little(product + 8, 4)};
}

/* A number in a payload; of width 0 where there is none. */
typedef struct {
    uint8_t place, width;
} part;

typedef struct {
    uint8_t opcode;
    part address, offset, count, verify;
    uint8_t data; /* where data begins, whose bytes count; 0 where there are none */
} layout;

static const layout layouts[] = {
    {OP_WRITE, {0, 4}, {0, 0}, {0, 0}, {0, 0}, 4},        {OP_READ, {0, 4}, {0, 0}, {4, 2}, {0, 0}, 0},
    {OP_COPY, {0, 4}, {6, 4}, {4, 2}, {0, 0}, 0},         {OP_ERASE, {0, 0}, {0, 4}, {4, 4}, {0, 0}, 0},
    {OP_RUN, {0, 4}, {0, 0}, {0, 0}, {0, 0}, 0},          {OP_READ_QSPI, {0, 0}, {0, 4}, {4, 2}, {0, 0}, 0},
    {OP_VERSION, {0, 0}, {0, 0}, {0, 0}, {0, 0}, 0},      {OP_CHIP_ERASE, {0, 0}, {0, 0}, {0, 0}, {0, 0}, 0},
    {OP_DIRECT_WRITE, {0, 0}, {1, 4}, {0, 0}, {0, 1}, 5},
};

static uint32_t number_in(const uint8_t *payload, part p)
{
    return p.width == 0 ? 0 : (uint32_t)little(payload + p.place, p.width);
}

model_command model_read_command(uint32_t opcode, const uint8_t *payload, size_t length)
{
    const layout *l = layouts;
    if (!model_known(opcode))
        return (model_command){11, 0, 0, 0, 0};
    if (length > 0xFFFF || !model_has_length(opcode, length))
        return (model_command){12, 0, 0, 0, 0};
    while (l->opcode != opcode)
        l++;
    uint32_t count = l->data ? (uint32_t)length - l->data : number_in(payload, l->count);
    return (model_command){
        0, number_in(payload, l->address), number_in(payload, l->offset), count, number_in(payload, l->verify),
    };
}
