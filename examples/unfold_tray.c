/* Unfolds the first trial tray, `1 2 66` (action 1 merged with action 2), and prints the plan reached and the steps. Build and run:
 *
 *   tools/build
 *   cc -Iinclude examples/unfold_tray.c target/staticlib/libaberulwy_c.a -o target/unfold_tray && target/unfold_tray
 */
#include "aberulwy.h"

#include <stdio.h>

int main(void) {
    static uint8_t tables[2305], list[300], a[64], b[64];
    const uint8_t plan[] = {1, 2, 66};
    /* The tables of the trial trays, as docs/FORMATS.md draws them. */
    tables[0] = 4;                                       /* four actions */
    tables[1 + 32 * 1 + 2] = tables[1 + 32 * 2 + 1] = 3; /* 1|2 = 2|1 = 3 */
    for (int i = 1; i <= 4; i++) tables[1025 + i] = 1;   /* dead stop is below every action */
    tables[1025 + 32 * 1 + 4] = 1;                       /* 1 < 4 */
    tables[2049 + 1] = tables[2049 + 2] = 1;             /* set 0 = {1, 2} */

    size_t steps, size, place;
    uint8_t number = aberulwy_unfold(tables, sizeof tables, plan, sizeof plan, 100, list, sizeof list, a, sizeof a, b, sizeof b, &steps, &size, &place);
    printf("end %u steps %zu size %zu place %zu\n", number, steps, size, place);
    const uint8_t *reached = steps % 2 == 0 ? a : b;
    for (size_t i = 0; i < size; i++) printf("%u%c", reached[i], i + 1 < size ? ' ' : '\n');
    for (size_t i = 0; i < steps; i++) printf("%u %u\n", list[3 * i], list[3 * i + 1] + 256 * list[3 * i + 2]);
    return number;
}
