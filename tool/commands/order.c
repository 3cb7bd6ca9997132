/* undalisho order: the order of two versions. */
#include "commands.h"
#include "exits.h"
#include "field.h"
#include "options.h"
#include "say.h"

#include <stdio.h>
#include <string.h>

static void print_order(const char *a, const char *b, int32_t order)
{
    static const char *const words[] = {"is lower than", "equals", "is higher than"};
    if (!say_json) {
        printf("%s %s %s\n", a, words[order + 1], b);
        return;
    }
    text t = {0};
    text_add(&t, "{\"a\":");
    text_add_json(&t, a, strlen(a));
    text_add(&t, ",\"b\":");
    text_add_json(&t, b, strlen(b));
    text_add(&t, ",\"order\":%d,\"words\":\"%s\"}\n", order, words[order + 1]);
    fputs(t.chars, stdout);
    text_free(&t);
}

int run_order(int count, char **words)
{
    const option options[] = {{"--json", FLAG, &say_json}, {NULL, FLAG, NULL}};
    uint8_t fields[2][UND_VERSION_FIELD];
    if (read_options(count, words, options, 2, 2) < 0)
        return MISUSED;
    for (int i = 0; i < 2; i++) {
        make_field(fields[i], words[i], strlen(words[i]));
        uint32_t number = und_rank(fields[i], sizeof fields[i]).number;
        if (number != 0)
            return refuse(number, "'%s'", words[i]);
    }
    und_ordered ordered = und_order(fields[0], sizeof fields[0], fields[1], sizeof fields[1]);
    if (ordered.number != 0)
        return refuse(ordered.number, "'%s', '%s'", words[0], words[1]);
    print_order(words[0], words[1], ordered.order);
    return DONE;
}
