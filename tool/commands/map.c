/* undalisho map: a picture of the flash, a sign for each sector. */
#include "commands.h"
#include "exits.h"
#include "memory.h"
#include "say.h"
#include "slot.h"
#include "warnings.h"

#include <stdbool.h>
#include <stdio.h>
#include <stdlib.h>
#include <string.h>
#include <unistd.h>

enum { CELLS = 64 }; /* sectors in a row */

/* What a sector is drawn as. */
enum { BLANK = '.', USED = 'o', HEADER = 'H', INVALID = '!', SHARED = '+' };

static bool is_blank(const uint8_t *sector)
{
    return sector[0] == UND_FLASH_BLANK && memcmp(sector, sector + 1, UND_FLASH_SECTOR - 1) == 0;
}

/* The signs of all sectors, and which of them the image that starts touches. */
typedef struct {
    size_t count;
    char *signs;
    bool *starts;
} sectors;

/* Draws `sign` over the sectors that bytes first to last touch. */
static void draw(sectors *s, uint64_t first, uint64_t last, char sign, bool starts)
{
    for (uint64_t i = first / UND_FLASH_SECTOR; i <= last / UND_FLASH_SECTOR && i < s->count; i++) {
        s->signs[i] = s->signs[i] == BLANK || s->signs[i] == USED ? sign : SHARED;
        s->starts[i] = s->starts[i] || starts;
    }
}

static void draw_image(sectors *s, const flash_view *v, uint32_t slot)
{
    const und_image *image = &v->images[slot - 1];
    uint64_t first = v->offsets[slot - 1];
    uint64_t last = image->rule ? first : (uint64_t)image->code_place + image->size - 1;
    draw(s, first, last, image->rule ? INVALID : (char)('0' + slot), v->selected.slot == slot);
}

static sectors sectors_of(const flash_view *v)
{
    sectors s = {.count = v->flash.length / UND_FLASH_SECTOR};
    s.signs = memory_of(s.count + 1);
    s.starts = memory_of(s.count * sizeof *s.starts);
    for (size_t i = 0; i < s.count; i++)
        s.signs[i] = is_blank(v->flash.bytes + i * UND_FLASH_SECTOR) ? BLANK : USED;
    if (v->product.number == 0) {
        draw(&s, v->header, v->header + sizeof((und_product_header *)0)->bytes - 1, HEADER, false);
        draw_image(&s, v, 1);
        draw_image(&s, v, 2);
    }
    return s;
}

static void free_sectors(sectors *s)
{
    free(s->signs);
    free(s->starts);
}

static const char *colour_of(char sign, bool starts)
{
    if (starts)
        return "\033[1;32m";
    return sign == BLANK ? "\033[2m" : sign == INVALID ? "\033[31m" : sign == HEADER ? "\033[1m" : "";
}

static void print_row(const sectors *s, size_t at, size_t count, bool colours)
{
    printf("  0x%06zX  ", at * UND_FLASH_SECTOR);
    for (size_t i = at; i < at + count; i++) {
        if (colours)
            printf("%s%c\033[0m", colour_of(s->signs[i], s->starts[i]), s->signs[i]);
        else
            putchar(s->signs[i]);
    }
    printf("\n");
}

/* Under a row, the sectors of the image that starts; the word is written where there is room. */
static void print_marks(const bool *starts, size_t count)
{
    static const char word[] = "starts";
    char marks[CELLS + 1] = {0};
    size_t first = count, end = 0;
    for (size_t i = 0; i < count; i++) {
        marks[i] = starts[i] ? '^' : ' ';
        first = starts[i] && i < first ? i : first;
        end = starts[i] ? i + 1 : end;
    }
    if (end == 0)
        return;
    marks[end] = 0;
    bool before = end + sizeof word > CELLS && first >= sizeof word;
    if (before)
        memcpy(marks + first - sizeof word, word, sizeof word - 1);
    printf("            %s%s%s\n", marks, before ? "" : " ", before ? "" : word);
}

/* On standard output, in colours where that is a terminal. */
static void print_map(const flash_view *v)
{
    bool colours = isatty(STDOUT_FILENO) && !getenv("NO_COLOR");
    sectors s = sectors_of(v);
    printf("%s: %zu bytes, %zu sectors of %d, a sign for each\n\n", v->path, v->flash.length, s.count,
           UND_FLASH_SECTOR);
    for (size_t at = 0; at < s.count; at += CELLS) {
        size_t count = s.count - at < CELLS ? s.count - at : CELLS;
        print_row(&s, at, count, colours);
        print_marks(s.starts + at, count);
    }
    printf("\n  %c blank   %c used   %c product header   1 image 1   2 image 2\n", BLANK, USED, HEADER);
    printf("  %c image that is not valid   %c shared by two of these\n", INVALID, SHARED);
    free_sectors(&s);
}

static void print_map_json(const flash_view *v)
{
    sectors s = sectors_of(v);
    text t = {0};
    add_view_json(&t, v, DONE);
    add_warnings_json(&t, v);
    printf("{%s,\"sectors\":%zu,\"cells\":\"%s\"}\n", t.chars, s.count, s.signs);
    text_free(&t);
    free_sectors(&s);
}

int run_map(int count, char **words)
{
    flash_view v;
    int code = read_view(count, words, &v);
    if (code != DONE)
        return code;
    if (say_json) {
        print_map_json(&v);
        return DONE;
    }
    print_map(&v);
    print_verdict(&v);
    print_warnings(&v);
    return DONE;
}
