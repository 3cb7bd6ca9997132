/* undalisho frame: the boot frame of a code. */
#include "frame.h"

#include "code.h"
#include "commands.h"
#include "exits.h"
#include "memory.h"
#include "openings.h"
#include "options.h"
#include "say.h"
#include "undalisho.h"

#include <stdio.h>

/* How many bytes a frame may have besides its code. */
enum { AROUND_CODE = 16 };

int make_frame(const char *path, content code, uint32_t kind, content *frame)
{
    size_t room = code.length + AROUND_CODE;
    frame->bytes = memory_of(room);
    und_framed framed = kind == UND_KIND_P ? und_frame_p(code.bytes, code.length, frame->bytes, room)
                                           : und_frame_e(code.bytes, code.length, frame->bytes, room);
    frame->length = framed.length;
    return framed.number == 0 ? DONE : refuse(framed.number, "%s", path);
}

static void print_gaps(FILE *out, const code_file *c)
{
    for (size_t i = 0; i < c->gap_count; i++) {
        text t = {0};
        add_gap(&t, &c->gaps[i]);
        fprintf(out, "%s\n", t.chars);
        text_free(&t);
    }
}

static void print_gaps_json(const code_file *c)
{
    printf("\"gaps\":[");
    for (size_t i = 0; i < c->gap_count; i++)
        printf("%s{\"first\":%u,\"last\":%u}", i ? "," : "", c->gaps[i].first, c->gaps[i].last);
    printf("]");
}

static void print_frame(const char *kind, size_t length, const code_file *c)
{
    if (say_json) {
        printf("{\"kind\":\"%s\",\"length\":%zu,", kind, length);
        print_gaps_json(c);
        printf("}\n");
    } else {
        print_gaps(stdout, c);
        printf("boot frame for kind %s: %zu bytes\n", kind, length);
    }
}

int run_frame(int count, char **words)
{
    const char *kind_word = NULL, *out = NULL;
    bool raw = false;
    const option options[] = {{"--kind", WORD, &kind_word},
                              {"--raw", FLAG, &raw},
                              {"-o", WORD, &out},
                              {"--json", FLAG, &say_json},
                              {NULL, FLAG, NULL}};
    uint32_t kind;
    code_file file;
    content frame;
    if (read_options(count, words, options, 1, 1) < 0 || !read_kind(kind_word, &kind))
        return MISUSED;
    if (!out)
        return misuse("-o FRAME is missing: where the frame goes");
    if (!are_separate((file_use[]){{"CODE", words[0], false}, {"-o", out, true}}, 2))
        return MISUSED;
    int code = read_code(words[0], raw, &file);
    if (code == DONE)
        code = make_frame(words[0], file.bytes, kind, &frame);
    if (code == DONE)
        code = write_output(out, frame.bytes, frame.length);
    if (code == DONE && is_regular(out))
        print_frame(kind_word, frame.length, &file);
    else if (code == DONE)
        print_gaps(stderr, &file); /* standard output may be where the frame goes */
    return code;
}
