/* A plan typed in signs becomes a station file: the bench of examples/bench with a crusted coin, with the hasty hub and with the hub that waits. Each file
 * written is compared with the one stored there, and read again. Build and run in the repository's root:
 *
 *   tools/build
 *   cc -Iinclude examples/write_station.c target/staticlib/libaberulwy_c.a -o target/write_station && target/write_station
 */
#include "aberulwy.h"

#include <stdio.h>
#include <string.h>

/* A station file has at most 38 blocks of 512 bytes. */
enum { LONGEST = 38 * 512 };

static uint8_t tables[2305], plan[64], file[LONGEST], stored[LONGEST + 1], tables_again[2305], plan_again[64];

/* What is offered, what the hub awaits, and what is seen when both meet; set h blocks offer and wait of message h. */
static void meet(int offer, int await, int seen, int h) {
    tables[1 + 32 * offer + await] = tables[1 + 32 * await + offer] = (uint8_t)seen;
    tables[2049 + 32 * h + offer] = tables[2049 + 32 * h + await] = 1;
}

/* Writes the file of a typed plan into the first area_len bytes of an area, and tells what came of it; where it is written, whether it is the stored one,
 * and whether the reader takes the same tables and plan from it. */
static void write_plan(const char *name, const char *text, size_t area_len) {
    char path[64];
    size_t words, size, words_again, place;
    uint8_t number = aberulwy_read_text(tables, sizeof tables, (const uint8_t *)text, strlen(text), plan, sizeof plan, &words, &place);
    if (number != 0) { printf("%s: the text is refused, %u at %zu\n", name, number, place); return; }
    number = aberulwy_write_station(tables, sizeof tables, plan, words, file, area_len, &size, &place);
    if (number != 0) { printf("%s: refused %u, with %zu bytes\n", name, number, area_len); return; }
    printf("%s: %zu words, %zu blocks, %zu bytes\n", name, words, size / 512, size);

    snprintf(path, sizeof path, "examples/bench/%s.station", name);
    FILE *station = fopen(path, "rb");
    if (station == NULL) { printf("%s cannot be opened: run this in the repository's root\n", path); return; }
    size_t length = fread(stored, 1, sizeof stored, station);
    fclose(station);
    puts(length == size && memcmp(stored, file, size) == 0 ? "  the stored file, byte for byte" : "  not the stored file");

    number = aberulwy_read_station(file, size, tables_again, sizeof tables_again, plan_again, sizeof plan_again, &words_again, &place);
    int same = number == 0 && words_again == words && memcmp(tables_again, tables, sizeof tables) == 0 && memcmp(plan_again, plan, words) == 0;
    puts(same ? "  read again: the same tables and the same plan" : "  read again: something else");
}

int main(void) {
    tables[0] = 13;                                     /* actions 1 to 13; 13 is "the balance settles" */
    for (int i = 1; i <= 13; i++) tables[1025 + i] = 1; /* dead stop is below every action */
    tables[1025 + 32 * 12 + 3] = 1;                     /* 12 < 3: a weight that is there goes before a turn */
    meet(4, 5, 6, 0);                                   /* photograph by the first camera */
    meet(7, 8, 9, 1);                                   /* photograph of the next coin */
    meet(10, 11, 12, 2);                                /* turn of the turntable */
    meet(1, 2, 3, 3);                                   /* weight of the first coin */

    const char *hasty = "T(H3((H2((H1((H0(((2 # 5.(11.8)) # 4)) # 7)) # 10)) # 13.1)))";
    const char *waits = "T(H3((H2((H1((H0(((2 # 5).(11.8) # 4)) # 7)) # 10)) # 13.1)))";
    write_plan("crusted-coin", hasty, 3071); /* one byte too few */
    write_plan("crusted-coin", hasty, 3072);
    write_plan("crusted-coin-hub-waits", waits, sizeof file);
    return 0;
}
