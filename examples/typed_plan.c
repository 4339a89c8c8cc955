/* The bench of examples/bench with a crusted coin and the hub that waits, its plan typed in signs: with two slips, each shown at its place, then
 * right; then it is unfolded. Build and run:
 *
 *   tools/build
 *   cc -Iinclude examples/typed_plan.c target/staticlib/libaberulwy_c.a -o target/typed_plan && target/typed_plan
 */
#include "aberulwy.h"

#include <stdio.h>
#include <string.h>

static uint8_t tables[2305], list[15000], plan[64], a[8192], b[8192];

/* What is offered, what the hub awaits, and what is seen when both meet; set h blocks offer and wait of message h. */
static void meet(int offer, int await, int seen, int h) {
    tables[1 + 32 * offer + await] = tables[1 + 32 * await + offer] = (uint8_t)seen;
    tables[2049 + 32 * h + offer] = tables[2049 + 32 * h + await] = 1;
}

/* Reads a text and prints the plan's words, or the refusal with a mark under its place. Returns the plan's length, 0 where it is refused. */
static size_t read_plan(const char *text) {
    size_t size, place;
    uint8_t number = aberulwy_read_text(tables, sizeof tables, (const uint8_t *)text, strlen(text), plan, sizeof plan, &size, &place);
    puts(text);
    if (number != 0) printf("%*s^ refused %u at %zu\n", (int)place, "", number, place);
    for (size_t i = 0; i < size; i++) printf("%u%c", plan[i], i + 1 < size ? ' ' : '\n');
    return size;
}

int main(void) {
    tables[0] = 13;                                     /* actions 1 to 13; 13 is "the balance settles" */
    for (int i = 1; i <= 13; i++) tables[1025 + i] = 1; /* dead stop is below every action */
    tables[1025 + 32 * 12 + 3] = 1;                     /* 12 < 3: a weight that is there goes before a turn */
    meet(4, 5, 6, 0);                                   /* photograph by the first camera */
    meet(7, 8, 9, 1);                                   /* photograph of the next coin */
    meet(10, 11, 12, 2);                                /* turn of the turntable */
    meet(1, 2, 3, 3);                                   /* weight of the first coin */

    /* One space stands on each side of a sign between two sums. */
    read_plan("T(H3((H2((H1((H0(((2 #5).(11.8) # 4)) # 7)) # 10)) # 13.1)))");
    /* There is no action 18. */
    read_plan("T(H3((H2((H1((H0(((2 # 5).(11.18) # 4)) # 7)) # 10)) # 13.1)))");
    size_t words = read_plan("T(H3((H2((H1((H0(((2 # 5).(11.8) # 4)) # 7)) # 10)) # 13.1)))");

    size_t steps, size, place, orders, stuck;
    uint8_t number =
        aberulwy_unfold(tables, sizeof tables, plan, words, 5000, list, sizeof list, a, sizeof a, b, sizeof b, &steps, &size, &place);
    aberulwy_count_orders(tables, sizeof tables, steps % 2 == 0 ? a : b, size, &orders, &stuck, &place);
    printf("end %u steps %zu size %zu orders %zu stuck %zu\n", number, steps, size, orders, stuck);
    return number;
}
