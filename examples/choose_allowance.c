/* The same tray with allowances one short, exact and larger. The bench of examples/bench, with a crusted coin and the hasty hub, is stopped by its allowance,
 * and the plan reached is unfolded on: both counts together are the steps that the tray needs. With one step fewer allowed it stops, with that many it
 * finishes, and a larger allowance changes nothing more. It is then lent a list and areas that are just long enough, a list a byte shorter, and areas a
 * byte shorter: there the largest allowance does not help. Build and run in the repository's root:
 *
 *   tools/build
 *   cc -Iinclude examples/choose_allowance.c target/staticlib/libaberulwy_c.a -o target/choose_allowance && target/choose_allowance
 */
#include "aberulwy.h"

#include <stdio.h>
#include <string.h>

/* What the program lends, the bytes of a step in the list, and the allowance with which we begin. */
enum { LIST = 15000, AREA = 8192, RECORD = 3, FIRST = 1000 };

static const uint32_t LARGEST = 4294967295;

/* What an unfolding answers, and what it leaves. */
struct run { uint8_t number; size_t steps, size; uint8_t list[LIST], a[AREA], b[AREA]; };

static uint8_t tables[2305], tray[AREA];
static size_t words;
static struct run first, rest, exact, lent, other;

/* Unfolds a plan, with so many bytes of the list and of each area. */
static void unfold(struct run *run, const uint8_t *plan, size_t size, uint32_t allowance, size_t list_len, size_t area_len) {
    size_t place;
    memset(run, 255, sizeof *run); /* nothing that an earlier call left is compared */
    run->number = aberulwy_unfold(tables, sizeof tables, plan, size, allowance, run->list, list_len, run->a, area_len, run->b, area_len, &run->steps,
                                  &run->size, &place);
}

/* Goes on from the plan that a run reached, with the largest allowance. */
static void go_on(struct run *run, const struct run *from, size_t area_len) {
    unfold(run, from->steps % 2 == 0 ? from->a : from->b, from->size, LARGEST, LIST, area_len);
}

static void tell(const struct run *run) {
    if (run->number == 0) printf("finished");
    else printf("%u", run->number);
    printf(" after %zu steps, at a plan of %zu words\n", run->steps, run->size);
}

/* Whether two runs answer and leave the same, byte for byte. */
static void compare(const struct run *run, const struct run *with) {
    int same = run->number == with->number && run->steps == with->steps && run->size == with->size && memcmp(run->list, with->list, LIST) == 0 &&
               memcmp(run->a, with->a, AREA) == 0 && memcmp(run->b, with->b, AREA) == 0;
    puts(same ? "the same answer, list and areas, byte for byte" : "something else");
}

/* The least length of the areas in which the tray finishes, which is that of the longest plan on the way: found by halving. */
static size_t least_areas(void) {
    size_t short_of = 0, enough = AREA;
    while (enough - short_of > 1) {
        size_t middle = (short_of + enough) / 2;
        unfold(&other, tray, words, LARGEST, LIST, middle);
        if (other.number == 0) enough = middle;
        else short_of = middle;
    }
    return enough;
}

static int read_tray(void) {
    static uint8_t file[19457];
    size_t place;
    FILE *station = fopen("examples/bench/crusted-coin.station", "rb");
    if (station == NULL) { puts("the station file cannot be opened: run this in the repository's root"); return 0; }
    size_t length = fread(file, 1, sizeof file, station);
    fclose(station);
    return aberulwy_read_station(file, length, tables, sizeof tables, tray, sizeof tray, &words, &place) == 0;
}

/* The steps that the tray needs: those of a run that is stopped, and those of one that goes on from there. Returns 0 where that one is stopped too. */
static size_t steps_needed(void) {
    printf("a crusted coin, with a list of %d bytes and areas of %d\n", LIST, AREA);
    unfold(&first, tray, words, FIRST, LIST, AREA);
    printf("allowance %d: ", FIRST);
    tell(&first);
    go_on(&rest, &first, AREA);
    printf("  and on from there: ");
    tell(&rest);
    return rest.number == 0 ? first.steps + rest.steps : 0;
}

/* One step short, exact and larger. */
static void allow(size_t steps) {
    unfold(&other, tray, words, (uint32_t)steps - 1, LIST, AREA);
    printf("allowance %zu: ", steps - 1);
    tell(&other);
    unfold(&exact, tray, words, (uint32_t)steps, LIST, AREA);
    printf("allowance %zu: ", steps);
    tell(&exact);
    int joined = memcmp(exact.list, first.list, RECORD * first.steps) == 0 && memcmp(exact.list + RECORD * first.steps, rest.list, RECORD * rest.steps) == 0;
    printf("  its list is %sthat of the first %zu steps and that of the %zu after them, end to end\n", joined ? "" : "not ", first.steps, rest.steps);
    const uint32_t larger[] = {5000, LARGEST};
    for (int i = 0; i < 2; i++) {
        unfold(&other, tray, words, larger[i], LIST, AREA);
        printf("allowance %u: ", larger[i]);
        compare(&other, &exact);
    }
}

/* The tray with a list and areas of these lengths: allowed just the steps that it needs, and then as many as can be. */
static void lend(size_t steps, size_t list_len, size_t area_len) {
    unfold(&lent, tray, words, (uint32_t)steps, list_len, area_len);
    printf("a list of %zu bytes, areas of %zu: ", list_len, area_len);
    tell(&lent);
    unfold(&other, tray, words, LARGEST, list_len, area_len);
    printf("  with the largest allowance: ");
    compare(&other, &lent);
}

int main(void) {
    if (!read_tray()) return 1;
    size_t steps = steps_needed();
    if (steps == 0 || RECORD * steps > LIST) return 1;
    allow(steps);
    size_t list_len = RECORD * steps, area_len = least_areas();
    lend(steps, list_len, area_len);
    lend(steps, list_len - 1, area_len);
    lend(steps, list_len, area_len - 1);
    go_on(&other, &lent, area_len - 1);
    printf("  and on from there: ");
    tell(&other);
    puts("34: allow more steps, or go on from the plan reached");
    puts("35: lend a longer list, three bytes for each step, or go on from the plan reached");
    puts("36: lend longer areas, up to 16384 bytes each; where these are too short, write the plan otherwise");
    return 0;
}
