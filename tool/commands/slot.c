/* undalisho slot: the slot that will start, both images, and the id for the next one. */
#include "slot.h"

#include "commands.h"
#include "exits.h"
#include "options.h"
#include "say.h"
#include "view.h"
#include "warnings.h"

#include <stdio.h>

int read_view(int count, char **words, flash_view *v)
{
    unsigned long header = USUAL_HEADER;
    const option options[] = {{"--header", NUMBER, &header}, {"--json", FLAG, &say_json}, {NULL, FLAG, NULL}};
    return read_options(count, words, options, 1, 1) < 0 ? MISUSED : view_file(v, words[0], header);
}

int run_slot(int count, char **words)
{
    flash_view v;
    int code = read_view(count, words, &v);
    if (code != DONE)
        return code;
    if (say_json) {
        text t = {0};
        add_view_json(&t, &v, REFUSED);
        add_warnings_json(&t, &v);
        printf("{%s}\n", t.chars);
        text_free(&t);
        say_json = false;
    } else {
        printf("%s: %zu bytes\n", v.path, v.flash.length);
        print_images(&v);
        if (v.selected.number == 0) {
            print_verdict(&v);
            print_next_id(&v);
        }
        print_warnings(&v);
    }
    return v.selected.number == 0 ? DONE : refuse(v.selected.number, "%s, header at 0x%05lX", v.path, v.header);
}
