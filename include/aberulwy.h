/* Aberulwy: verified process algebra. The public calls for C, as crate `aberulwy_c` defines them.
 *
 * What is returned: a number of docs/NUMBERS.md, 0 where nothing is refused and nothing stops the call. aberulwy_reached and aberulwy_list_station,
 * which have no number there, return 0, or 1 where the area handed in is too short. All else that a call answers is in its out numbers (size_t *),
 * each of which is set in every case: *place is the printed form of the place (a byte's index, a step's index, or 1024 a + 32 b + c for a triple of
 * actions; 0 where none is named), and the others are 0 where the call is refused. One size_t * is no out number: *finished of aberulwy_fresh_walk
 * and aberulwy_walk is lent, and keeps what it held where the call is refused. docs/FORMATS.md has the bytes of tables, plans, texts, rewritings,
 * marks and station files.
 *
 * A call takes slices of any length, each a pointer and a length. It reads and writes nothing but these, its out numbers and *finished, and it ends.
 * What it may write to must not overlap anything else handed to it, and no pointer may be null, even where its length is 0.
 *
 * Stack: allow 640 KiB for aberulwy_list_station, 512 KiB for aberulwy_unfold and aberulwy_unfold_checked, 256 KiB for aberulwy_fix_form, 192 KiB for
 * aberulwy_read_text and aberulwy_check_rewriting, 128 KiB for aberulwy_walk, 96 KiB for aberulwy_precedes, and 64 KiB for each other call. Measured in
 * threads on x86-64 Linux with the older kit, rattle-kit-5b-plain, aberulwy_list_station needs 486 KiB, aberulwy_unfold and aberulwy_unfold_checked 354,
 * aberulwy_fix_form 198, aberulwy_read_text 131 (for a text 200 brackets deep; no text goes deeper), aberulwy_check_rewriting 121 (for a step from right
 * to left with a long left side), aberulwy_walk 86, aberulwy_precedes 54, and the others at most 32. Nothing is allocated.
 *
 * The archive is made by tools/build: target/staticlib/libaberulwy_c.a.
 */
#ifndef ABERULWY_H
#define ABERULWY_H

#include <stddef.h>
#include <stdint.h>

#define ABERULWY_VERSION "0.13.0"

#ifdef __cplusplus
extern "C" {
#endif

/* Judges tables (2,305 bytes). Returns 0 where they are accepted, or 1 to 8. */
uint8_t aberulwy_judge_tables(const uint8_t *tables, size_t tables_len, size_t *place);

/* Judges tables and then a plan. Returns 0 where both are accepted, or 1 to 8, 11 to 14. */
uint8_t aberulwy_judge_plan(const uint8_t *tables, size_t tables_len, const uint8_t *plan, size_t plan_len, size_t *place);

/* Asks whether a plan is basic. Returns 0, and then *basic is 1 where it is and 0 where it is not; or returns 1 to 8, 11 to 14. */
uint8_t aberulwy_is_basic(const uint8_t *tables, size_t tables_len, const uint8_t *plan, size_t plan_len, size_t *basic, size_t *place);

/* Counts the paths of a basic plan. Returns 0, and then *orders of them finish and *stuck lead into a dead stop, 0 of both for a plan that is not basic;
 * a path that stands twice among the words counts twice (1 1 64 has 2 orders). Or returns 1 to 8, 11 to 14. */
uint8_t aberulwy_count_orders(const uint8_t *tables, size_t tables_len, const uint8_t *plan, size_t plan_len, size_t *orders, size_t *stuck,
                              size_t *place);

/* Unfolds a plan. Returns 0 where it finished, or 34 (allowance), 35 (list) or 36 (areas) where it stopped; *steps is then the count of steps made
 * and *size that of the words of the plan reached. Or returns 1 to 8, 11 to 15, which leave list and areas as they are. The list holds three bytes
 * for each step (law, then place, low byte first) and zeros behind. The plan reached stands in a after an even number of steps and in b after an
 * odd one; the other area holds the plan one step before, or zeros where no step was made; zeros stand behind both. Every plan needs a number of steps
 * of its own. It finishes exactly where the allowance is not below that number, the list has three bytes for each of them, and each area holds every plan
 * on the way, of at most 16384 words. A larger allowance never changes what a call that returned 0, 35 or 36 answers and leaves; after 34 it may help, and
 * so may a further call for the plan reached, which needs the steps that are left (docs/ALLOWANCES.md). */
uint8_t aberulwy_unfold(const uint8_t *tables, size_t tables_len, const uint8_t *plan, size_t plan_len, uint32_t allowance, uint8_t *list,
                        size_t list_len, uint8_t *a, size_t a_len, uint8_t *b, size_t b_len, size_t *steps, size_t *size, size_t *place);

/* Unfolds a plan as aberulwy_unfold does, with the same number returned and the same *steps, *size and *place, and then checks the unfolding's own
 * rewriting, from the given plan to the plan reached, in areas c and d. *checked is 1 where that check was made, and 0 where the unfolding was
 * refused, which leaves c and d as they are. *own_number, *own_steps, *own_size and *own_place are what aberulwy_check_rewriting returns and sets
 * for that check, and it leaves c and d as aberulwy_check_rewriting does a and b; all four are 0 where no check was made. Where c is as long as a,
 * and d as b, a check that is made accepts: that is proved. */
uint8_t aberulwy_unfold_checked(const uint8_t *tables, size_t tables_len, const uint8_t *plan, size_t plan_len, uint32_t allowance, uint8_t *list,
                                size_t list_len, uint8_t *a, size_t a_len, uint8_t *b, size_t b_len, uint8_t *c, size_t c_len, uint8_t *d,
                                size_t d_len, size_t *steps, size_t *size, size_t *place, size_t *checked, size_t *own_number, size_t *own_steps,
                                size_t *own_size, size_t *own_place);

/* Copies the plan reached, after `steps` steps and of `size` words, out of area a or b into another area. Returns 0, and then *copied is the
 * plan's length, and zeros stand behind it; or returns 1 where the area is too short for it: it then keeps its bytes, and *copied is 0. An area a or
 * b of fewer than size bytes is copied whole. */
uint8_t aberulwy_reached(const uint8_t *a, size_t a_len, const uint8_t *b, size_t b_len, size_t steps, size_t size, uint8_t *plan, size_t plan_len,
                         size_t *copied);

/* Checks a rewriting from a start plan to a claimed end plan. A record of three bytes is a step from left to right: law, then place, low byte first. A
 * record whose first byte is 128 more than a law's number is a step from right to left: behind its place it has the length of the left side, two bytes,
 * low byte first, and the words of the left side. It fits where that law, applied at the last of these words, gives exactly the subplan at the place; the
 * left side then stands there instead. Returns 0 where the rewriting is accepted, or 31 (a step does not fit, or its place is past the end), 32 (a plan
 * too long) or 33 (another end) where it is turned back; *steps is then the count of steps made and *size that of the words of the plan reached. Or
 * returns 1 to 8, 11 to 18, 75, which leave the areas as they are: for the rewriting 16 (the last record is cut short), then 17 (a first byte names no law
 * in either direction), then 75 (a left side that is no accepted plan). The areas are left as by aberulwy_unfold. */
uint8_t aberulwy_check_rewriting(const uint8_t *tables, size_t tables_len, const uint8_t *start, size_t start_len, const uint8_t *claimed,
                                 size_t claimed_len, const uint8_t *rewriting, size_t rewriting_len, uint8_t *a, size_t a_len, uint8_t *b,
                                 size_t b_len, size_t *steps, size_t *size, size_t *place);

/* Reads a station file into a tables area and a plan area. Returns 0, and then *size is the plan's length; the tables stand in the first 2,305
 * bytes of their area and the plan in the first *size bytes of its own, with zeros behind both. Or returns 51 to 55, then 1 to 8, 11 to 14, which
 * leave the areas as they are. A file is read, in areas that hold it, exactly when it is the one that aberulwy_write_station writes from some tables
 * and some plan, and these are what is read: that is proved. */
uint8_t aberulwy_read_station(const uint8_t *file, size_t file_len, uint8_t *tables, size_t tables_len, uint8_t *plan, size_t plan_len,
                              size_t *size, size_t *place);

/* Writes the station file of tables and a plan into an area. Returns 0, and then *size is the file's length: 512 bytes for each block, 5 of the tables and
 * one of the plan for each 504 words or part of them (19,456 bytes for the longest plan). The file stands first in the area, and zeros behind. Or returns
 * 1 to 8, 11 to 14, then 74 where the area is shorter than the file: the area then keeps its bytes. What aberulwy_read_station takes from the file, into
 * areas that hold it, is those tables and that plan: that is proved. */
uint8_t aberulwy_write_station(const uint8_t *tables, size_t tables_len, const uint8_t *plan, size_t plan_len, uint8_t *file, size_t file_len,
                               size_t *size, size_t *place);

/* Reads a text, a plan typed in signs, into a plan area. Returns 0, and then *size is the plan's length; its words stand first in the area, and
 * zeros behind. Or returns 1 to 8; then the first of 61 (a character that cannot go on, a text that ends too early, an action above n) and 62 (a
 * bracket deeper than 200) in the text, at its place; then 63 (a plan longer than the area or than 16,384 words): the area then keeps its bytes.
 * The text has any length and any bytes, with no zero at its end. docs/FORMATS.md has the grammar. */
uint8_t aberulwy_read_text(const uint8_t *tables, size_t tables_len, const uint8_t *text, size_t text_len, uint8_t *plan, size_t plan_len,
                           size_t *size, size_t *place);

/* Begins a walk: the hub's progress through a basic plan, which the caller keeps, in marks (one byte for each word of the plan) and in *finished
 * (which must hold some number before the call; any will do). Returns 0, and then marks is zero but for its last byte, which is 1, and *finished is
 * 0. Or returns, in this order, 1 to 8, 11 to 14, or 70 for a plan that is not basic or marks of another length than the plan: marks and *finished
 * then keep what they held. */
uint8_t aberulwy_fresh_walk(const uint8_t *tables, size_t tables_len, const uint8_t *plan, size_t plan_len, uint8_t *marks, size_t marks_len,
                            size_t *finished, size_t *place);

/* Brings a message, an action, to a walk. Any byte of marks but zero is a mark, and any marks are a progress: a mark stands for the subplan whose
 * last word it is at, also at a product's first factor. Returns 0 where the message is taken. A byte of marks is then 1 where the message leads
 * from a marked subplan to the subplan whose last word that is, and else 0; *finished is 1 where the message finishes from a marked subplan, and
 * else 0, whatever *finished held. Or returns, in this order, 1 to 8, 11 to 14, 70 as aberulwy_fresh_walk does, 71 for an action outside 1 to n, or
 * 72 where no path goes on with it: marks and *finished then keep what they held. From a fresh walk a message is taken exactly when some path of
 * the plan's tree begins with the messages taken so far and this one, and *finished is 1 exactly when exactly those messages can end in a finish:
 * that is proved. */
uint8_t aberulwy_walk(const uint8_t *tables, size_t tables_len, const uint8_t *plan, size_t plan_len, uint8_t *marks, size_t marks_len,
                      uint8_t message, size_t *finished, size_t *place);

/* Asks whether on every path of a basic plan each appearance of action second has action first somewhere before it; paths into a dead stop and
 * beginnings of paths count too. Returns 0, and then *yes is 1 where it is so; else *yes is 0, and *at is the least place (the index of the word) of an
 * appearance that has none before it on its path. *at is 0 but under no. Or returns 1 to 8, 11 to 14, then 73 where the two are equal or one of them is
 * outside 1 to n, then 70 where the plan is not basic. */
uint8_t aberulwy_precedes(const uint8_t *tables, size_t tables_len, const uint8_t *plan, size_t plan_len, uint8_t first, uint8_t second, size_t *yes,
                          size_t *at, size_t *place);

/* Brings a basic plan to its fixed form, one for all basic plans whose trees are alike, and puts it into an area. Returns 0, and then *size is the form's
 * length, which is never more than the plan's; the form stands first in the area, and zeros behind. In it remainders are in their fixed form, equal
 * summands stand once, summands stand in ascending order of their bytes (a shorter one first where it begins the longer), and sums group to the left. Or
 * returns 1 to 8, 11 to 14, then 70 where the plan is not basic, then 74 where the area is shorter than the form: the area then keeps its bytes. Two basic
 * plans have equal fixed forms exactly when their trees are alike, whichever tables each comes with, and the fixed form of a fixed form is itself: that
 * is proved. */
uint8_t aberulwy_fix_form(const uint8_t *tables, size_t tables_len, const uint8_t *plan, size_t plan_len, uint8_t *area, size_t area_len, size_t *size,
                          size_t *place);

/* Lists a station file: everything that the program prints for it, refusals too. Returns 0, and then *size is the text's length, and zeros stand
 * behind it; or returns 1 where the area is too short for it: it then keeps its bytes, and *size is 0. No listing is longer than 93,000 bytes. */
uint8_t aberulwy_list_station(const uint8_t *file, size_t file_len, uint8_t *out, size_t out_len, size_t *size);

#ifdef __cplusplus
}
#endif

#endif
