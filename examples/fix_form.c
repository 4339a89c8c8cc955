/* One form for plans that do the same. Three cataloguers draw the plan that the bench of examples/bench unfolds to, with the hub that waits and a coin that
 * may be too light. Two of them draw its choices in other orders and groups, the second a choice twice. The third draws the same orders, but has the choice
 * between two of them made when the balance settles, and not after it. Each plan is brought to its fixed form, and the form is compared with that of the
 * plan unfolded. Build and run in the repository's root:
 *
 *   tools/build
 *   cc -Iinclude examples/fix_form.c target/staticlib/libaberulwy_c.a -o target/fix_form && target/fix_form
 */
#include "aberulwy.h"

#include <stdio.h>
#include <string.h>

static uint8_t file[19457], tables[2305], plan[8192], list[15000], a[8192], b[8192], form[64], drawn[64], area[64];

static void show(const uint8_t *words, size_t count) {
    for (size_t i = 0; i < count; i++) printf(" %u", words[i]);
    puts("");
}

/* Brings a plan to its form in the first area_len bytes of an area, and tells the form's length or the refusal. Returns the length, 0 where it is refused. */
static size_t fix(const char *name, const uint8_t *words, size_t count, uint8_t *into, size_t area_len) {
    size_t size, place;
    uint8_t number = aberulwy_fix_form(tables, sizeof tables, words, count, into, area_len, &size, &place);
    printf("%s: %zu words, ", name, count);
    if (number == 0) printf("%zu in form\n", size);
    else printf("refused %u\n", number);
    return size;
}

/* A plan typed in signs: how many orders and stuck paths it has, and whether its form is that of the plan unfolded. */
static void compare(const char *name, const char *text, size_t form_size) {
    size_t words, place, orders, stuck;
    uint8_t number = aberulwy_read_text(tables, sizeof tables, (const uint8_t *)text, strlen(text), drawn, sizeof drawn, &words, &place);
    if (number != 0) { printf("%s: the text is refused, %u at %zu\n", name, number, place); return; }
    size_t size = fix(name, drawn, words, area, sizeof area);
    aberulwy_count_orders(tables, sizeof tables, drawn, words, &orders, &stuck, &place);
    printf("  %s\n  %zu orders, %zu stuck\n", text, orders, stuck);
    if (size == form_size && memcmp(area, form, size) == 0) puts("  the same form, byte for byte");
    else {
        printf("  another form:");
        show(area, size);
    }
}

int main(void) {
    size_t length, words, steps, size, place;
    FILE *station = fopen("examples/bench/light-coin-hub-waits.station", "rb");
    if (station == NULL) { puts("the station file cannot be opened: run this in the repository's root"); return 1; }
    length = fread(file, 1, sizeof file, station);
    fclose(station);
    if (aberulwy_read_station(file, length, tables, sizeof tables, plan, sizeof plan, &words, &place) != 0) return 1;
    fix("the bench", plan, words, form, sizeof form); /* it has merges, and is not basic */

    if (aberulwy_unfold(tables, sizeof tables, plan, words, 5000, list, sizeof list, a, sizeof a, b, sizeof b, &steps, &size, &place) != 0) return 1;
    const uint8_t *unfolded = steps % 2 == 0 ? a : b;
    fix("unfolded, in an area of 36 bytes", unfolded, size, form, 36); /* one byte too few */
    size_t form_size = fix("unfolded", unfolded, size, form, sizeof form);
    printf(" ");
    show(unfolded, size);
    printf("  in form:");
    show(form, form_size);

    compare("first cataloguer", "13.(3.(6.(12.9))+6.(3.(12.9)))+13.(6.0)+6.(13.0+13.(3.(12.9)))", form_size);
    compare("second cataloguer", "6.(13.(3.(12.9))+13.0)+(13.(6.0)+(6.(13.0+13.(3.(12.9)))+13.(6.(3.(12.9))+3.(6.(12.9)))))", form_size);
    compare("third cataloguer", "6.(13.0+13.(3.(12.9)))+13.(3.(6.(12.9)))+13.(6.(3.(12.9)))+13.(6.0)", form_size);
    return 0;
}
