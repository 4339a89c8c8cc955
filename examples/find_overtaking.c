/* Weight before photograph: can the photograph of the next coin (9) overtake the weight (3)? Each station file of examples/bench is read and unfolded, and
 * the plan reached is asked; under no, the actions on the path to the place are shown. Build and run in the repository's root:
 *
 *   tools/build
 *   cc -Iinclude examples/find_overtaking.c target/staticlib/libaberulwy_c.a -o target/find_overtaking && target/find_overtaking
 */
#include "aberulwy.h"

#include <stdio.h>

enum { WEIGHT = 3, NEXT_PHOTOGRAPH = 9, PRODUCT = 65 };

static uint8_t file[19457], tables[2305], plan[8192], list[15000], a[8192], b[8192];

/* The actions on the path to place at: of each product whose second factor holds it, the first factor. In a basic plan that is the word before the second
 * factor's first one, and where a word's subplan starts is known from those before it. */
static void show_path(const uint8_t *words, size_t count, size_t at) {
    static size_t starts[8192];
    for (size_t i = 0; i < count; i++) starts[i] = words[i] < 64 ? i : starts[starts[i - 1] - 1];
    for (size_t i = count - 1; i > at; i--)
        if (words[i] == PRODUCT && starts[i - 1] - 1 < at) printf(" %u", words[starts[i - 1] - 1]);
    printf(" %u\n", words[at]);
}

static void ask(const char *name) {
    char path[64];
    size_t length, words, steps, size, yes, at, place;
    snprintf(path, sizeof path, "examples/bench/%s.station", name);
    FILE *station = fopen(path, "rb");
    if (station == NULL) { printf("%s cannot be opened: run this in the repository's root\n", path); return; }
    length = fread(file, 1, sizeof file, station);
    fclose(station);

    uint8_t number = aberulwy_read_station(file, length, tables, sizeof tables, plan, sizeof plan, &words, &place);
    if (number == 0) number = aberulwy_unfold(tables, sizeof tables, plan, words, 5000, list, sizeof list, a, sizeof a, b, sizeof b, &steps, &size, &place);
    if (number != 0) { printf("%s: %u at %zu\n", name, number, place); return; }
    const uint8_t *reached = steps % 2 == 0 ? a : b;

    number = aberulwy_precedes(tables, sizeof tables, reached, size, WEIGHT, NEXT_PHOTOGRAPH, &yes, &at, &place);
    if (number != 0) printf("%s: refused %u\n", name, number);
    else if (yes) printf("%s: yes\n", name);
    else {
        printf("%s: no, at word %zu:", name, at);
        show_path(reached, size, at);
    }
}

int main(void) {
    puts("the weight (3) before the photograph of the next coin (9)");
    ask("clean-coin");
    ask("clean-coin-hub-waits");
    ask("crusted-coin");
    ask("crusted-coin-hub-waits");
    ask("light-coin");
    ask("light-coin-hub-waits");
    return 0;
}
