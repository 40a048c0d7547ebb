/* Fills a column of a sheet in memory, and another sheet by the rule of the first: example [CALLS], where CALLS is how
 * often it does so. */
#include "flashfill.h"

#include <stdio.h>
#include <stdlib.h>
#include <string.h>

static const char sheet[] = "Name,City,Label\n"
                            "Ada Byron,London,Byron (London)\n"
                            "Max Planck,Kiel,\n"
                            "Lise Meitner,Graz,Meitner (Graz)\n"
                            "Carl Gauss,Kassel,\n";
static const char more[] = "City,Name\n"
                           "Paris,Marie Curie\n";

static void show(const struct flashfill_answer *answer) {
    fwrite(answer->out, 1, answer->out_size, stdout);
    fwrite(answer->err, 1, answer->err_size, stderr);
}

static int fill_both(int is_shown) {
    const char *fill[] = {"people.csv", "--to", "Label", "--state", "--save-rule", "label.rule"};
    const char *run[] = {"--rule", "label.rule"};
    struct flashfill_file people = {"people.csv", sheet, strlen(sheet)};
    struct flashfill_answer filled, others;

    int status = flashfill_run("fillcsv", fill, 6, &people, 1, &filled);
    struct flashfill_file files[] = {{"label.rule", filled.saved, filled.saved_size}, {"-", more, strlen(more)}};
    int then = flashfill_run("fillcsv", run, 2, files, 2, &others);
    if (is_shown) {
        show(&filled);
        show(&others);
    }
    flashfill_free(&filled);
    flashfill_free(&others);
    return status ? status : then;
}

int main(int count, char **words) {
    for (long calls = count > 1 ? atol(words[1]) : 1; calls > 1; calls--)
        fill_both(0);
    return fill_both(1);
}
