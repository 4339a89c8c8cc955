/* A tray with a crusted coin, followed message by message: the weight (3) is late, and is seen after the photograph of the next coin (9). The plans
 * are those that examples/bench unfolds to, for the hasty hub and for the hub that waits. Build and run:
 *
 *   tools/build
 *   cc -Iinclude examples/walk_plan.c target/staticlib/libaberulwy_c.a -o target/walk_plan && target/walk_plan
 */
#include "aberulwy.h"

#include <stdio.h>

static const uint8_t hasty[] = {6, 12, 9, 13, 3, 65, 65, 13, 9, 3, 65, 3, 9, 65, 64, 65, 64, 65, 13, 3, 12, 9, 65,
                                65, 65, 64, 65, 13, 6, 3, 12, 9, 65, 65, 65, 3, 6, 12, 9, 65, 65, 65, 64, 65, 64};
static const uint8_t waits[] = {6,  13, 3, 12, 9, 65, 65, 65, 65, 13, 6, 3, 12, 9,
                                65, 65, 65, 3, 6, 12, 9, 65, 65, 65, 64, 65, 64};
static uint8_t tables[2305], marks[64];

/* Brings messages to a walk of the plan, one after another: whether each is taken, at which places the walk is marked then, and whether it may end. */
static void follow(const char *name, const uint8_t *plan, size_t words, const uint8_t *messages, size_t count) {
    size_t finished = 0, place;
    puts(name);
    if (aberulwy_fresh_walk(tables, sizeof tables, plan, words, marks, words, &finished, &place) != 0) return;
    for (size_t i = 0; i < count; i++) {
        uint8_t number = aberulwy_walk(tables, sizeof tables, plan, words, marks, words, messages[i], &finished, &place);
        printf("%4u ", messages[i]);
        if (number == 0) printf("taken:");
        else printf("refused %u, still:", number);
        for (size_t p = 0; p < words; p++)
            if (marks[p] != 0) printf(" marked at %zu", p);
        puts(finished ? " finished" : "");
    }
}

int main(void) {
    tables[0] = 13;                                     /* actions 1 to 13: 3 weight, 6 photograph, 9 the next coin's, 12 turn, 13 the balance settles */
    for (int i = 1; i <= 13; i++) tables[1025 + i] = 1; /* dead stop is below every action */

    static const uint8_t late[] = {6, 12, 13, 9, 3}, early[] = {6, 12, 13, 3, 12, 9};
    follow("the hasty hub, and a weight after the next coin's photograph", hasty, sizeof hasty, late, sizeof late);
    follow("the hub that waits, and a turn that comes too early", waits, sizeof waits, early, sizeof early);
    return 0;
}
