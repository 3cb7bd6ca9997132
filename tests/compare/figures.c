#include "figures.h"

#include "fill.h"
#include "undalisho.h"

#include <string.h>

void field_of(const char *text, uint8_t field[VERSION_FIELD])
{
    memset(field, 0, VERSION_FIELD);
    memcpy(field, text, strlen(text));
}

static void order_figure(trial *t, const char *a, const char *b, uint32_t number, int32_t order)
{
    uint8_t left[VERSION_FIELD], right[VERSION_FIELD];
    field_of(a, left);
    field_of(b, right);
    und_ordered got = und_order(left, sizeof left, right, sizeof right);
    model_ordered model = model_order(left, sizeof left, right, sizeof right);
    if (got.number != number || got.order != order || model.number != number || model.order != order)
        differ(t, "figure: order of '%s' and '%s'", a, b);
}

static void version_figures(trial *t)
{
    order_figure(t, "1.9", "1.10", 0, -1);
    order_figure(t, "1.9", "1.9.0", 0, 0);
    order_figure(t, "65535.65535.6553", "65535.65535.6553", 0, 0);
    order_figure(t, "01.2", "1.9", 61, 0);
    order_figure(t, "", "1.9", 61, 0);
    order_figure(t, "1.65536", "1.9", 61, 0);
    order_figure(t, "1..2", "1.9", 61, 0);
}

/* The headers for the code 123456789, id 9, version 1.10 and a time, and for two offsets, byte by byte. */
static void header_figures(trial *t)
{
    static const uint8_t image[IMAGE_HEADER] = {
        0x70, 0x51, 0xAA, 9, 9, 0, 0, 0, 0x26, 0x39, 0xF4, 0xCB, '1', '.', '1', '0', [28] = 0x04, 0x03, 0x02, 0x81,
    };
    static const uint8_t product[] = {0x70, 0x52, 0, 0, 0x00, 0x10, 0, 0, 0x78, 0x56, 0x34, 0x12};
    const uint8_t *code = (const uint8_t *)"123456789";
    uint8_t version[VERSION_FIELD];
    field_of("1.10", version);
    und_image_header got = und_make_image_header(code, 9, 9, version, sizeof version, 0x81020304);
    model_image_header model = model_make_image_header(code, 9, 9, version, sizeof version, 0x81020304);
    if (got.number != 0 || model.number != 0 || memcmp(got.bytes, image, IMAGE_HEADER) ||
        memcmp(model.bytes, image, IMAGE_HEADER))
        differ(t, "figure: image header of 123456789");
    if (memcmp(und_make_product_header(0x1000, 0x12345678).bytes, product, sizeof product) ||
        memcmp(model_make_product_header(0x1000, 0x12345678).bytes, product, sizeof product))
        differ(t, "figure: product header");
}

static void checksum_figures(trial *t)
{
    static const uint8_t digits[] = {'1', '2', '3', '4', '5', '6', '7', '8', '9'};
    if (model_crc16(digits, sizeof digits) != 0x29B1 || model_crc32(digits, sizeof digits) != 0xCBF43926)
        differ(t, "figure: CRC of 123456789");
}

void run_figures(trial *t)
{
    version_figures(t);
    tray_figures(t);
    slot_figures(t);
    checksum_figures(t);
    header_figures(t);
    exchange_figures(t);
    refusal_figures(t);
    altered_figures(t);
    record_figures(t);
    load_figures(t);
    command_figures(t);
    range_figures(t);
    talk_figures(t);
    host_call_figures(t);
    replay_figures(t);
    recorded_figures(t);
}
