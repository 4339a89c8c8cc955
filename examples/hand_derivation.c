/* A hand derivation: from an unfolded plan back to the plan of the parts, and by another way forward again. The bench of examples/bench, with a crusted
 * coin and the hub that waits, is unfolded, and the list of its steps is turned round: each step from left to right becomes one from right to left, which
 * carries the words that it was made on. From the plan of the parts two steps are then made by hand, after which the balance goes first, and the rest is
 * unfolded. Both lists laid end to end are one rewriting, from the one unfolded plan to the other: the checker judges it, and the fixed forms of the two
 * plans are compared. At last the rewriting is damaged. Build and run in the repository's root:
 *
 *   tools/build
 *   cc -Iinclude examples/hand_derivation.c target/staticlib/libaberulwy_c.a -o target/hand_derivation && target/hand_derivation
 */
#include "aberulwy.h"

#include <stdio.h>
#include <string.h>

/* The bytes of a record, but for the left side that a step from right to left carries; and what the first byte of such a step is above its law. */
enum { FORWARDS = 3, BACKWARDS = 5, GOES_BACK = 128 };

struct words { uint8_t at[8192]; size_t count; };
struct records { uint8_t at[32768]; size_t bytes; };

static uint8_t tables[2305], a[8192], b[8192];
static struct words parts, unfolded, begun, balance_first;
static struct records list, turned, rest, both;

static void show(const uint8_t *words, size_t count) {
    for (size_t i = 0; i < count; i++) printf(" %u", words[i]);
    puts("");
}

static size_t two_bytes(const uint8_t *bytes) { return bytes[0] + 256u * bytes[1]; }

static void put_two_bytes(uint8_t *bytes, size_t number) { bytes[0] = (uint8_t)(number % 256); bytes[1] = (uint8_t)(number / 256); }

static size_t record_size(const uint8_t *record) { return record[0] < GOES_BACK ? FORWARDS : BACKWARDS + two_bytes(record + FORWARDS); }

/* Shows the records from one index to another. */
static void show_records(const struct records *shown, size_t from, size_t to) {
    const uint8_t *record = shown->at;
    for (size_t i = 0; i < to; i++, record += record_size(record)) {
        if (i < from) continue;
        printf("  law %2u at %2zu, ", record[0] % GOES_BACK, two_bytes(record + 1));
        if (record[0] < GOES_BACK) puts("left to right");
        else {
            printf("right to left, to");
            show(record + BACKWARDS, two_bytes(record + FORWARDS));
        }
    }
}

/* Unfolds a plan: its list, and the plan reached. Returns the steps, or 0 where it does not finish. */
static size_t unfold(const struct words *plan, struct records *made, struct words *reached) {
    size_t steps, size, place;
    uint8_t number = aberulwy_unfold(tables, sizeof tables, plan->at, plan->count, 5000, made->at, sizeof made->at, a, sizeof a, b, sizeof b, &steps, &size,
                                     &place);
    if (number != 0) return 0;
    made->bytes = FORWARDS * steps;
    aberulwy_reached(a, sizeof a, b, sizeof b, steps, size, reached->at, sizeof reached->at, &reached->count);
    return steps;
}

/* Makes one step or more from a plan, and puts the plan that they lead to in its place. Any accepted plan may be claimed. Returns the steps made. */
static size_t follow(struct words *plan, const uint8_t *records, size_t bytes) {
    size_t steps, size, place;
    aberulwy_check_rewriting(tables, sizeof tables, plan->at, plan->count, plan->at, plan->count, records, bytes, a, sizeof a, b, sizeof b, &steps, &size,
                             &place);
    if (steps > 0) aberulwy_reached(a, sizeof a, b, sizeof b, steps, size, plan->at, sizeof plan->at, &plan->count);
    return steps;
}

/* How many words the subplan at a place has: back from its last word, until no operand is missing. */
static size_t subplan_size(const uint8_t *words, size_t place) {
    size_t from = place + 1;
    for (size_t missing = 1; missing > 0; missing--) {
        uint8_t word = words[--from];
        missing += word < 64 ? 0 : word < 70 ? 2 : 1;
    }
    return place + 1 - from;
}

/* Turns a list of steps from left to right round. The last step comes first, so the records are put down from the area's end on. Returns 0 where a step does
 * not fit or the area is too short, and else 1. */
static int turn_round(const struct words *start, const struct records *made, struct records *back) {
    static struct words plan, next;
    plan = *start;
    back->bytes = 0;
    for (const uint8_t *record = made->at; record < made->at + made->bytes; record += FORWARDS) {
        size_t place = two_bytes(record + 1), left = subplan_size(plan.at, place);
        next = plan;
        if (follow(&next, record, FORWARDS) != 1 || back->bytes + BACKWARDS + left > sizeof back->at) return 0;
        back->bytes += BACKWARDS + left;
        uint8_t *turned_record = back->at + sizeof back->at - back->bytes;
        turned_record[0] = (uint8_t)(GOES_BACK + record[0]);
        /* What is put in ends as far before the end of the plan as what is taken away. */
        put_two_bytes(turned_record + 1, place + next.count - plan.count);
        put_two_bytes(turned_record + FORWARDS, left);
        memcpy(turned_record + BACKWARDS, plan.at + place + 1 - left, left);
        plan = next;
    }
    memmove(back->at, back->at + sizeof back->at - back->bytes, back->bytes);
    return 1;
}

/* What the checker says of the first so many bytes of a rewriting. */
static void judge(const char *name, const struct words *start, const struct words *claimed, const struct records *judged, size_t bytes) {
    size_t steps, size, place;
    uint8_t number = aberulwy_check_rewriting(tables, sizeof tables, start->at, start->count, claimed->at, claimed->count, judged->at, bytes, a, sizeof a, b,
                                              sizeof b, &steps, &size, &place);
    printf("%s: ", name);
    if (number == 0) printf("accepted, %zu steps in %zu bytes\n", steps, bytes);
    else if (number >= 31 && number <= 33) printf("turned back, %u after %zu steps\n", number, steps);
    else printf("refused %u at %zu\n", number, place);
}

/* Whether the two unfolded plans have one fixed form. */
static void compare_forms(void) {
    static struct words form, other;
    size_t place;
    uint8_t number = aberulwy_fix_form(tables, sizeof tables, unfolded.at, unfolded.count, form.at, sizeof form.at, &form.count, &place);
    if (number == 0) number = aberulwy_fix_form(tables, sizeof tables, balance_first.at, balance_first.count, other.at, sizeof other.at, &other.count, &place);
    if (number != 0) { printf("  no form: refused %u\n", number); return; }
    puts(memcmp(form.at, other.at, sizeof form.at) == 0 ? "  the same form, byte for byte:" : "  two forms, and the first is:");
    printf(" ");
    show(form.at, form.count);
}

/* What the checker says where a word of the third record's left side is another one, and where the last byte is missing. */
static void damage(void) {
    uint8_t *left = both.at;
    for (int i = 0; i < 2; i++) left += record_size(left);
    left += BACKWARDS;
    uint8_t word = *left;
    *left = 1;
    judge("an action of the third left side changed to 1", &unfolded, &balance_first, &both, both.bytes);
    *left = 64;
    judge("changed to 64, which lacks operands there", &unfolded, &balance_first, &both, both.bytes);
    *left = word;
    judge("the last byte cut off", &unfolded, &balance_first, &both, both.bytes - 1);
}

static int read_bench(void) {
    static uint8_t file[19457];
    size_t place;
    FILE *station = fopen("examples/bench/crusted-coin-hub-waits.station", "rb");
    if (station == NULL) { puts("the station file cannot be opened: run this in the repository's root"); return 0; }
    size_t length = fread(file, 1, sizeof file, station);
    fclose(station);
    return aberulwy_read_station(file, length, tables, sizeof tables, parts.at, sizeof parts.at, &parts.count, &place) == 0;
}

int main(void) {
    if (!read_bench()) return 1;
    printf("the parts: %zu words\n ", parts.count);
    show(parts.at, parts.count);
    size_t steps = unfold(&parts, &list, &unfolded);
    if (steps == 0 || !turn_round(&parts, &list, &turned)) return 1;
    judge("unfolded", &parts, &unfolded, &list, list.bytes);
    printf(" ");
    show(unfolded.at, unfolded.count);
    judge("turned round, from there back to the parts", &unfolded, &parts, &turned, turned.bytes);
    show_records(&turned, 0, 3);
    puts("  ...");
    show_records(&turned, steps - 2, steps);

    /* By hand: the merge with the balance is written out (law 11), and of its first two summands the one that the balance begins is put first (law 1). */
    static const uint8_t by_hand[] = {11, 19, 0, 1, 40, 0};
    begun = parts;
    if (follow(&begun, by_hand, sizeof by_hand) != 2 || unfold(&begun, &rest, &balance_first) == 0) return 1;
    memcpy(list.at, by_hand, sizeof by_hand);
    memcpy(list.at + sizeof by_hand, rest.at, rest.bytes);
    list.bytes = sizeof by_hand + rest.bytes;
    judge("two steps by hand, and the rest unfolded", &parts, &balance_first, &list, list.bytes);
    show_records(&list, 0, 3);
    printf("  ...\n ");
    show(balance_first.at, balance_first.count);

    if (turned.bytes + list.bytes > sizeof both.at) return 1;
    both = turned;
    memcpy(both.at + both.bytes, list.at, list.bytes);
    both.bytes += list.bytes;
    judge("end to end, from one unfolded plan to the other", &unfolded, &balance_first, &both, both.bytes);
    compare_forms();
    damage();
    return 0;
}
