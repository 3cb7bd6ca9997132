/* undalisho offer: of two image files, the one with the higher version. */
#include "commands.h"
#include "exits.h"
#include "openings.h"
#include "options.h"
#include "say.h"
#include "view.h"
#include "words.h"

#include <stdio.h>
#include <string.h>

enum { LARGEST_FILE = 1 << 26 };

typedef struct {
    const char *role, *path;
    content file;
    und_image image;
} offered_file;

static int read_image_file(offered_file *f)
{
    if (!read_file(f->path, LARGEST_FILE, &f->file))
        return fail_errno("name a file that can be read", "%s cannot be read", f->path);
    if (f->file.length > LARGEST_FILE)
        return fail("name an image file", "%s is too large to be read", f->path);
    f->image = und_read_image(f->file.bytes, f->file.length, 0);
    return DONE;
}

static void print_files(const offered_file files[2])
{
    for (int i = 0; i < 2; i++) {
        text t = {0};
        add_image(&t, files[i].file.bytes, &files[i].image);
        printf("%s %s: %s\n", files[i].role, files[i].path, t.chars);
        text_free(&t);
    }
}

static void print_offer(const offered_file files[2], und_offered offered)
{
    const uint8_t *old = files[0].file.bytes + files[0].image.version_place;
    const uint8_t *new = files[1].file.bytes + files[1].image.version_place;
    static const char *const words[] = {"the candidate's version is lower", "the versions are equal",
                                        "its version is higher"};
    int32_t order = und_order(new, UND_VERSION_FIELD, old, UND_VERSION_FIELD).order;
    printf("take the %s: %s\n", files[offered.file - 1].role, words[order + 1]);
}

static void print_offer_json(const offered_file files[2], und_offered offered)
{
    text t = {0};
    text_add(&t, "{\"number\":%u,\"file\":%u,\"place\":%zu,\"size\":%zu", offered.number, offered.file, offered.place,
             offered.size);
    if (offered.number != 0)
        text_add_meaning(&t, meaning_of(offered.number), REFUSED);
    for (int i = 0; i < 2; i++) {
        text_add(&t, ",\"%s\":{\"path\":", files[i].role);
        text_add_json(&t, files[i].path, strlen(files[i].path));
        text_add(&t, ",");
        add_image_json(&t, files[i].file.bytes, &files[i].image);
        text_add(&t, "}");
    }
    text_add(&t, "}\n");
    fputs(t.chars, stdout);
    text_free(&t);
}

static int write_code(const char *out, const offered_file *winner, und_offered offered)
{
    if (!out)
        return DONE;
    int code = write_output(out, winner->file.bytes + offered.place, offered.size);
    if (code == DONE && !say_json && is_regular(out))
        printf("its code, %zu bytes, is in %s\n", offered.size, out);
    return code;
}

int run_offer(int count, char **words)
{
    const char *out = NULL;
    const option options[] = {{"-o", WORD, &out}, {"--json", FLAG, &say_json}, {NULL, FLAG, NULL}};
    if (read_options(count, words, options, 2, 2) < 0)
        return MISUSED;
    const file_use uses[] = {{"INSTALLED", words[0], false}, {"CANDIDATE", words[1], false}, {"-o", out, true}};
    if (!are_separate(uses, sizeof uses / sizeof *uses))
        return MISUSED;
    offered_file files[2] = {{.role = "installed", .path = words[0]}, {.role = "candidate", .path = words[1]}};
    for (int i = 0; i < 2; i++) {
        int code = read_image_file(&files[i]);
        if (code != DONE)
            return code;
    }
    und_offered offered =
        und_offer(files[0].file.bytes, files[0].file.length, files[1].file.bytes, files[1].file.length);
    if (say_json)
        print_offer_json(files, offered);
    else
        print_files(files);
    if (offered.number != 0) {
        say_json = false;
        return refuse(offered.number, "%s, %s", files[0].path, files[1].path);
    }
    if (!say_json)
        print_offer(files, offered);
    return write_code(out, &files[offered.file - 1], offered);
}
