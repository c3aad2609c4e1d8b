/* The C interface of the club report plans: report, unnest, stay note, the check of steps made elsewhere, the converter of versions, and the
 * prize fund table.
 *
 * Link with libcabi.a, which `rt lib` in crates/cabi writes to crates/cabi/out/ once everything is proved (Linux on x86-64, of its level v2
 * or above). The archive needs nothing but the C library.
 *
 * The set of tables, the plan, a list of steps and the plan theirs are any bytes; the purse and the shares are any numbers. A buffer is a
 * pointer and the number of its elements (not of its bytes, where an element is wider than one). What the caller owes: a pointer is not null,
 * not even with length 0; it is aligned for its element; so many elements can be read, and those of out, out_set, out_plan, out_steps and
 * scratch written; and a buffer that is written overlaps no other. No call allocates, keeps a pointer, or fails in any other way than by a
 * refusal number.
 *
 * Tables and plans are of version 2, but for those that the converter takes up from version 1 and gives back in it. A cell is a signed
 * 64-bit code: a number from -9,000,000,000,000,000 to 9,000,000,000,000,000, or one of the two codes below. A set has at most 1,024,064
 * bytes, a plan at most 2,054. In the converter 2 and 7 mean: not the version that it takes.
 *
 * Each call gives one 64-bit word. Its low byte is the refusal, 0 for none; a refused call gives its number alone. Which answer is the
 * right one, for any input, is in docs/DEFINITION.md.
 *
 *    1  table cut short                      9  a field that the kind does not list, or out of its range
 *    2  table's mark, or not version 2      10  children missing or nodes left over
 *    3  table's columns or rows             11  no such table
 *    4  cell code                           12  an id twice, above 255, or not in view
 *    5  bytes after 8 tables                13  a row over 32 columns
 *    6  plan's length                       14  a bound over 4,096 rows
 *    7  plan's mark, or not version 2       15  output short
 *    8  node count                          16  scratch below the need; tested before 15
 *                                           17  a purse over 100,000,000, or not 1 to 20 shares that sum to 10,000; tested after 16
 *                                           18  a prize report of fewer than two columns; tested after 17 and before 15
 *                                           20  a list of steps of odd length, or a rule outside 1 to 8; tested before 16
 *                                           21  a step does not fit, or another plan is left; tested after 16
 *                                           25  a number that does not fit version 1; tested before 15
 *
 * A refused call leaves its outputs as they were. Unwritten output keeps its elements. Scratch is untouched after 1 to 14 and all zero
 * after every other end. It is of cells of 64 bits, and counted in them. The need is at most 8,392,704 cells: 4,096, and for each of up to 64
 * nodes no more than its row bound times its columns.
 */
#ifndef CLUB_H
#define CLUB_H

#include <stddef.h>
#include <stdint.h>

#ifdef __cplusplus
extern "C" {
#endif

/* A cell of a report that is no number. */
#define CLUB_BLANK INT64_MIN
#define CLUB_OFF_SCALE INT64_MAX

/* The report of a plan over a set of tables: its codes row by row at the front of out.
 * Gives refusal + 2^8 * columns + 2^16 * rows. A report has at most 4,096 rows of at most 32 columns. */
uint64_t club_report(const uint8_t *set, size_t set_len, const uint8_t *plan, size_t plan_len,
                     int64_t *out, size_t out_len, uint64_t *scratch, size_t scratch_len);

/* The plan with every unnesting done that fits, at the front of out_plan, and the steps at the front of out_steps, two bytes each: the
 * rule, 1 to 8, and the place before the step. 2,054 bytes hold any plan, 384 the steps from any.
 * Gives refusal + 2^8 * steps + 2^24 * bytes of the plan. Its 16 looks at every plan passed through. */
uint64_t club_unnest(const uint8_t *set, size_t set_len, const uint8_t *plan, size_t plan_len,
                     uint8_t *out_plan, size_t out_plan_len, uint8_t *out_steps, size_t out_steps_len,
                     uint64_t *scratch, size_t scratch_len);

/* The smallest position, from 0, at which the two sequences differ that keep U3, U4 or U6 from fitting at a place, or at which just one
 * of them has ended. Gives the refusal (1 to 14, or 16), or 2^8 + 2^16 * position, or 0 where no note is due. */
uint64_t club_stay_note(const uint8_t *set, size_t set_len, const uint8_t *plan, size_t plan_len,
                        size_t place, uint64_t *scratch, size_t scratch_len);

/* Whether steps made elsewhere are right: each fits in its turn, from the plan given and over its tables, and the plan left is theirs, byte for
 * byte. The steps are two bytes each, as club_unnest writes them; theirs is only compared, and not read as a plan.
 * Gives the refusal (1 to 14 of the set and the plan given, 20, 16 or 21), or 0 where they are right. Its 16 looks at the plan given and at each
 * plan after a step before the first one that does not fit. */
uint64_t club_check_steps(const uint8_t *set, size_t set_len, const uint8_t *plan, size_t plan_len,
                          const uint8_t *steps, size_t steps_len, const uint8_t *theirs, size_t theirs_len,
                          uint64_t *scratch, size_t scratch_len);

/* A set and a plan of version 1 taken up to version 2, and of version 2 taken down to version 1: the set at the front of out_set, the plan at
 * the front of out_plan. Up, 1,024,064 and 2,054 bytes hold any; down, 512,064 and 1,542. 2 and 7 mean: not the version that the call takes.
 * Down is refused 25 where a number of any table or test lies outside -2,000,000,000 to 2,000,000,000. Where either buffer is short neither is
 * written. Gives refusal + 2^8 * bytes of the plan + 2^24 * bytes of the set. */
uint64_t club_convert_up(const uint8_t *set, size_t set_len, const uint8_t *plan, size_t plan_len,
                         uint8_t *out_set, size_t out_set_len, uint8_t *out_plan, size_t out_plan_len);
uint64_t club_convert_down(const uint8_t *set, size_t set_len, const uint8_t *plan, size_t plan_len,
                           uint8_t *out_set, size_t out_set_len, uint8_t *out_plan, size_t out_plan_len);

/* The prize fund table of a report whose first column is the player and whose second is the score, best row first: player and pence, two cells
 * a row, at the front of out. The purse is in pence, 0 to 100,000,000; 1 to 20 shares of it, in hundredths of a per cent, sum to 10,000, and the
 * first is that of the first row's place. The club line is the pence that no row gets; payments and the club line add up to the purse.
 * Gives refusal + 2^8 * rows + 2^24 * club line. */
uint64_t club_prize(const uint8_t *set, size_t set_len, const uint8_t *plan, size_t plan_len,
                    uint64_t purse, const uint32_t *shares, size_t shares_len,
                    int64_t *out, size_t out_len, uint64_t *scratch, size_t scratch_len);

/* The parts of a word. */
static inline unsigned club_refusal(uint64_t word) { return (unsigned)(word & 0xff); }
static inline size_t club_columns(uint64_t report) { return (size_t)(report >> 8 & 0xff); }
static inline size_t club_rows(uint64_t report) { return (size_t)(report >> 16); }
static inline size_t club_steps(uint64_t unnested) { return (size_t)(unnested >> 8 & 0xffff); }
static inline size_t club_plan_bytes(uint64_t unnested) { return (size_t)(unnested >> 24); }
static inline size_t club_converted_plan_bytes(uint64_t converted) { return (size_t)(converted >> 8 & 0xffff); }
static inline size_t club_converted_set_bytes(uint64_t converted) { return (size_t)(converted >> 24); }
static inline size_t club_prize_rows(uint64_t prizes) { return (size_t)(prizes >> 8 & 0xffff); }
static inline uint64_t club_line(uint64_t prizes) { return prizes >> 24; }
static inline int club_has_note(uint64_t note) { return (note & 0xffff) == 0x100; }
static inline size_t club_position(uint64_t note) { return (size_t)(note >> 16); }

#ifdef __cplusplus
}
#endif

#endif
