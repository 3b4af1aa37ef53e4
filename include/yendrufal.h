/*
 * Yendrufal: plates, trellises and decoding of binary block codes of length 1 to 64.
 *
 * How the calls are alike:
 * - A run of numbers crosses as a pointer and the number of its cells. A run that a call may write
 *   overlaps no other run. An empty run may be (NULL, 0): nothing is read or written through its
 *   pointer. No other pointer is NULL.
 * - The reply is YENDRUFAL_DONE, the number of a refusal, 1 to 28, each under the calls that name it, or one
 *   of the two codes above 99.
 * - YENDRUFAL_SHAPE comes before everything else: a run is shorter than its use fixes, or `kind` is
 *   neither G nor H. A run may be longer than its use; the cells beyond are not touched.
 * - Unless the reply is YENDRUFAL_DONE nothing lent changes, but for `place` beside a refusal.
 * - `place` (one cell, of yendrufal_plate_of_sheet two) receives the place of a refusal, and 0 when the call is
 *   done. Calls without it refuse with place 0 only.
 * - The words of a plate are the words of its code plus its mask, modulo 2; with mask 0 they are the code's own.
 *   Below, a codeword is a word of the plate.
 * - A word has position i at the bit of weight 2^i. A positive sample favours bit 0.
 * - The library keeps nothing between calls, and has no variables, no heap and no input or output of its
 *   own. So calls may run at once, in several threads or in an interrupt, where none writes a run that
 *   another is lent; runs that are only read may be shared.
 * - Every call ends, and no function calls itself, so the stack of a call is bounded whatever the input: on
 *   x86-64 under 12 KiB for yendrufal_listing, under 5 KiB for yendrufal_read_alist, under 4 KiB for
 *   yendrufal_plate_of_sheet and yendrufal_judge, under 3 KiB for yendrufal_write_alist and at most 2,048
 *   bytes for every other call, beside what memcpy and memset of the C library take (docs/PERFORMANCE.md
 *   has each call's bytes).
 *
 * Below the calls stand types for plates, rooms and answers, and each call that takes a plate once more with these, as an
 * inline function; and the words of a refusal. docs/REFUSALS.md has all refusals: number, words, when, place, and which
 * call meets them; docs/INTEGRATION.md how to size rooms and what a receiver's loop looks like.
 */
#ifndef YENDRUFAL_INCLUDED
#define YENDRUFAL_INCLUDED

#include <stddef.h>
#include <stdint.h>

/* 10000 * major + 100 * minor + patch. The major number changes where a program that links the library has to be compiled
   again. */
#define YENDRUFAL_VERSION 10100

#ifdef __cplusplus
extern "C" {
#endif

/* Replies. */
#define YENDRUFAL_DONE 0
#define YENDRUFAL_LENGTH 1          /* n is 0 or over 64 */
#define YENDRUFAL_ROW_COUNT 2       /* more than 64 rows */
#define YENDRUFAL_ROW_BEYOND 3      /* a row has a one at n or beyond; place: the first such row */
#define YENDRUFAL_TOO_WIDE 4        /* some profile entry exceeds 12; place: the first such depth */
#define YENDRUFAL_NO_PLATE 5        /* the plate is not one that preparing gives */
#define YENDRUFAL_SAMPLE_COUNT 6    /* the number of samples is not n, or not that of whole blocks; of levels: values or room */
#define YENDRUFAL_SAMPLE_RANGE 7    /* a sample outside -2047 to 2047; place: the first such position */
#define YENDRUFAL_METRIC_ROOM 8     /* metric room too short; of weights: counts or working room */
#define YENDRUFAL_DECISION_ROOM 9   /* decision room too short */
#define YENDRUFAL_SHEET_LINE 10     /* sheet line missing or not ended (of a sheet) */
#define YENDRUFAL_LINE_ROOM 11      /* listing line longer than its room */
#define YENDRUFAL_NO_STATE 12       /* depth n or more, state not present, or bit over 1 */
#define YENDRUFAL_INFORMATION 13    /* information has a one at k or beyond */
#define YENDRUFAL_NO_CODEWORD 14    /* word read back is no codeword */
#define YENDRUFAL_SHEET_LENGTH 15   /* sheet over 32,768 bytes (of a sheet) */
#define YENDRUFAL_ALIST_FAULT 16    /* fault in an alist text; place: the first such line, from 1; writing: no rows */
#define YENDRUFAL_FIRST_FIELD 17    /* first field unknown or out of its turn (of a sheet) */
#define YENDRUFAL_FIELD_COUNT 18    /* wrong number of fields; the first missing or extra (of a sheet) */
#define YENDRUFAL_FIELD_VALUE 19    /* bad number, letter or order (of a sheet) */
#define YENDRUFAL_ROW_FIELD 20      /* row or mask of wrong length or character (of a sheet) */
#define YENDRUFAL_POSITION 21       /* the position is n or beyond */
#define YENDRUFAL_WHOLE_SPACE 22    /* k is 64 (of weights) */
#define YENDRUFAL_MASK_BEYOND 23    /* the mask has a one at n or beyond */
#define YENDRUFAL_SETTING 24        /* step or top of the levels out of range */
#define YENDRUFAL_NOT_A_NUMBER 25   /* a heard value that is not a number; place: the first such position */
#define YENDRUFAL_BRANCH_FAULT 26   /* a bad branch line, or one out of depth order; place: the line, from 1 */
#define YENDRUFAL_BRANCH_TWICE 27   /* a branch line that repeats; place: the line, from 1 */
#define YENDRUFAL_TOO_MANY_LINES 28 /* more than 1,024 branch lines */
#define YENDRUFAL_NO_BRANCH 100     /* an ordinary reply: no branch with this bit leaves the state */
#define YENDRUFAL_SHAPE 101         /* a run is too short for its fixed use, or `kind` is over 1 */

/* Which position stands at the left of a sheet's rows and samples. */
#define YENDRUFAL_ORDER_FIRST 0 /* position 0 */
#define YENDRUFAL_ORDER_LAST 1  /* position n - 1 */

/* How the rows of a matrix are meant. */
#define YENDRUFAL_KIND_G 0 /* generator: the code is all sums of rows */
#define YENDRUFAL_KIND_H 1 /* parity check: the code is all words even with every row */

/* The reasons of yendrufal_why_not. */
#define YENDRUFAL_CHOSEN 0
#define YENDRUFAL_NOT_IN_CODE 1
#define YENDRUFAL_SCORES_LESS 2
#define YENDRUFAL_TIES 3

/* A plate is a flat run of 64-bit numbers: n, k, 64 rows, 65 profile entries, the mask; unused places are 0. */
#define YENDRUFAL_PLATE_WORDS 132
#define YENDRUFAL_PLATE_N 0
#define YENDRUFAL_PLATE_K 1
#define YENDRUFAL_PLATE_ROWS 2
#define YENDRUFAL_PLATE_PROFILE 66
#define YENDRUFAL_PLATE_MASK 131

/* Rooms that decoding, its two parts, firmness and why_not need, in cells; m is the largest profile entry, at
   most 12. The metric alone needs no decisions. */
#define YENDRUFAL_METRICS(m) ((size_t)2 << (m))
#define YENDRUFAL_DECISIONS(n, m) ((size_t)(n) << ((m) < 6 ? 0 : (m) - 6))
#define YENDRUFAL_METRICS_MOST 8192   /* enough for every plate */
#define YENDRUFAL_DECISIONS_MOST 4096 /* enough for every plate */

/* Cells of weights: the counts, and the working room. */
#define YENDRUFAL_WEIGHT_COUNTS 65
#define YENDRUFAL_WEIGHT_WORKING(m) ((size_t)130 << (m))
#define YENDRUFAL_WEIGHT_WORKING_MOST 532480 /* enough for every plate */

/* The verdicts of yendrufal_judge. */
#define YENDRUFAL_RIGHT 0
#define YENDRUFAL_SPELLED_WRONGLY 1
#define YENDRUFAL_NOT_SPELLED 2

/* The room that judging so many branch lines needs, in cells. Whoever does not count them may take the number of line feeds. */
#define YENDRUFAL_JUDGING(lines) ((size_t)4 * (size_t)(lines))
#define YENDRUFAL_JUDGING_MOST 4096 /* enough for 1,024 lines; more are refusal 28 */

/* Rooms for text, in bytes. */
#define YENDRUFAL_ALIST_MOST 24576 /* enough for the alist text of every matrix */
#define YENDRUFAL_LINE_MOST 256    /* enough for every listing line */
#define YENDRUFAL_SHEET_MOST 32768 /* a longer sheet is refusal 15 */
/* A whole listing, for a sheet with so many block or heard lines: plate, profile, tally and end besides. Whoever does
   not count them may take the number of line feeds in the sheet. */
#define YENDRUFAL_LISTING(lines) ((size_t)YENDRUFAL_LINE_MOST * ((size_t)(lines) + 4))

/* Turns a matrix of `row_count` rows and a mask, 0 for none, into a plate. Refusals 1, 2, 3, 23, 4, in this
   order. Fixed: plate 132, place 1. */
uint64_t yendrufal_prepare(uint64_t n, uint64_t kind, const uint64_t *rows, size_t row_count,
                           uint64_t mask, uint64_t *plate, size_t plate_length, uint64_t *place,
                           size_t place_length);

/* The plate of a sheet, its rows and its mask taken in the order of its cover, and that order: samples that are handed
   over as the sheet lists them have to be turned where it is YENDRUFAL_ORDER_LAST. The whole sheet is read, and refused
   as in its listing: 15; 10 and 17 to 20, where `place` receives line and field of the sheet, both from 1, the field 0
   for 10; 1; 2; 4. Of other refusals, and when the call is done, the second cell is 0. docs/REFUSALS.md has their order.
   Fixed: plate 132, order 1, place 2. */
uint64_t yendrufal_plate_of_sheet(const uint8_t *sheet, size_t sheet_length, uint64_t *plate, size_t plate_length,
                                  uint64_t *order, size_t order_length, uint64_t *place, size_t place_length);

/* The alist text of a parity check matrix of n columns and `row_count` rows, at the start of `room`; `written` receives its
   bytes. One space between two numbers, a line feed after each line, indices ascending. Refusals 1, 2, 3, 16 (no rows), 11,
   in this order. Fixed: written 1, place 1. */
uint64_t yendrufal_write_alist(uint64_t n, const uint64_t *rows, size_t row_count, uint8_t *room, size_t room_length,
                               uint64_t *written, size_t written_length, uint64_t *place, size_t place_length);

/* The parity check matrix of an alist text: `sizes` receives n and the number of rows, `rows` the rows in its first cells
   and 0 in the others of the first 64: n and so many rows are what yendrufal_prepare takes as YENDRUFAL_KIND_H. Several spaces
   may stand for one, and the indices of a list in any order. Refusal 16, where `place` receives the first line that is faulty,
   missing or extra, from 1. Fixed: sizes 2, rows 64, place 1. */
uint64_t yendrufal_read_alist(const uint8_t *text, size_t text_length, uint64_t *sizes, size_t sizes_length,
                              uint64_t *rows, size_t rows_length, uint64_t *place, size_t place_length);

/* The state that the branch with this bit leads to from a state of a depth, or YENDRUFAL_NO_BRANCH.
   Refusals 5, 12. Fixed: plate 132, next 1. */
uint64_t yendrufal_branch(const uint64_t *plate, size_t plate_length, uint64_t depth,
                          uint64_t state, uint64_t bit, uint64_t *next, size_t next_length);

/* The codeword of an information: bit j takes row j, and the mask is added. Refusals 5, 13. Fixed: plate 132, word 1. */
uint64_t yendrufal_encode(const uint64_t *plate, size_t plate_length, uint64_t information,
                          uint64_t *word, size_t word_length);

/* The information of a codeword. Refusals 5, 14. Fixed: plate 132, information 1. */
uint64_t yendrufal_read_back(const uint64_t *plate, size_t plate_length, uint64_t word,
                             uint64_t *information, size_t information_length);

/* m of a plate, its largest profile entry, by which rooms are sized. Refusal 5. Fixed: plate 132, widest 1. */
uint64_t yendrufal_widest_entry(const uint64_t *plate, size_t plate_length, uint64_t *widest, size_t widest_length);

/* How many words of the plate's code have each number of ones, its mask left aside: count w of `counts`, 0 beyond n; and
   `least`, the smallest weight above 0, or 0 where there is none, k being 0. `counts` has 65 cells or more and `working`
   YENDRUFAL_WEIGHT_WORKING(m), or the refusal is 8. Afterwards the needed part of `working`, its first cells, is zero.
   Refusals 5, 22, 8, in this order. Fixed: plate 132, least 1. */
uint64_t yendrufal_weights(const uint64_t *plate, size_t plate_length, uint64_t *counts, size_t count_length,
                           uint64_t *working, size_t working_length, uint64_t *least, size_t least_length);

/* The level of one value: the largest of 0 to `top` whose product with `step`, rounded once to float, is at most the
   value; of a negative value, minus the level of its negation; and 0 where `erased` is not 0, whatever the value. Levels
   are samples as decoding takes them. `step` has to be finite and above 0, `top` 1 to 127 and their product finite, or
   the refusal is 24; 25 where the value is heard and not a number. Refusals 24, 25, in this order. Fixed: level 1. */
uint64_t yendrufal_level(float step, uint64_t top, float value, uint64_t erased, int16_t *level, size_t level_length);

/* The levels of a block of n values, those marked in `erased` (bit i for position i) erased: level i is that of value i.
   There are n values and n cells of `levels`, or the refusal is 6; the place of 25 is the first heard value that is not
   a number. Refusals 1, 24, 6, 25, in this order. Fixed: place 1. */
uint64_t yendrufal_levels(uint64_t n, float step, uint64_t top, const float *values, size_t value_count, uint64_t erased,
                          int16_t *levels, size_t level_count, uint64_t *place, size_t place_length);

/* The codeword of greatest metric, of equals the earliest; its metric; and the counts of additions
   and of comparisons. Afterwards the needed part of both rooms, their first cells, is zero.
   Refusals 5 to 9. Fixed: plate 132, word 1, metric 1, counts 2, place 1. */
uint64_t yendrufal_decode(const uint64_t *plate, size_t plate_length, const int16_t *samples,
                          size_t sample_count, int32_t *metrics, size_t metric_count,
                          uint64_t *decisions, size_t decision_count, uint64_t *word,
                          size_t word_length, int32_t *metric, size_t metric_length,
                          uint64_t *counts, size_t counts_length, uint64_t *place,
                          size_t place_length);

/* Many blocks of one plate in one call, which tests the plate once: block b is the n samples from b * n on, and its
   codeword and metric, as decoding gives them, go to place b of `words` and of `scores`. There are as many blocks as
   words lent and as many scores, or the refusal is 6; the place of 7 is that in the whole run of samples. The counts
   are those of each block, and 0 where there is none. Both rooms are as for decoding one block, and are left as by it.
   Refusals 5 to 9. Fixed: plate 132, counts 2, place 1. */
uint64_t yendrufal_decode_blocks(const uint64_t *plate, size_t plate_length, const int16_t *samples,
                                 size_t sample_count, int32_t *metrics, size_t metric_count,
                                 uint64_t *decisions, size_t decision_count, uint64_t *words,
                                 size_t word_count, int32_t *scores, size_t score_count,
                                 uint64_t *counts, size_t counts_length, uint64_t *place,
                                 size_t place_length);

/* The greatest metric of any codeword, and the counts of additions and of comparisons, as decoding
   gives them; no word, and no decision room. For a receiver that tries several plates on one block.
   Afterwards the needed part of the metric room is zero. Refusals 5 to 8.
   Fixed: plate 132, metric 1, counts 2, place 1. */
uint64_t yendrufal_metric(const uint64_t *plate, size_t plate_length, const int16_t *samples,
                          size_t sample_count, int32_t *metrics, size_t metric_count,
                          int32_t *metric, size_t metric_length, uint64_t *counts,
                          size_t counts_length, uint64_t *place, size_t place_length);

/* The word that decoding gives, and the same counts, without the metric. Both rooms are left as by
   decoding. Refusals 5 to 9. Fixed: plate 132, word 1, counts 2, place 1. */
uint64_t yendrufal_word(const uint64_t *plate, size_t plate_length, const int16_t *samples,
                        size_t sample_count, int32_t *metrics, size_t metric_count,
                        uint64_t *decisions, size_t decision_count, uint64_t *word,
                        size_t word_length, uint64_t *counts, size_t counts_length,
                        uint64_t *place, size_t place_length);

/* How firmly a position was received. Where every codeword has the same bit there, `fixed` receives 1
   and `value` that bit; else `fixed` receives 0 and `value` the margin: the best metric among the
   codewords with 0 there minus the best among those with 1, within 262,016 either way. Positive means
   that decoding gives 0 there, negative 1; zero decides nothing. Both rooms are left as by decoding.
   Refusals 5, 6, 7, 21, 8, 9, in this order. Fixed: plate 132, fixed 1, value 1, place 1. */
uint64_t yendrufal_firmness(const uint64_t *plate, size_t plate_length, const int16_t *samples,
                            size_t sample_count, uint64_t position, int32_t *metrics,
                            size_t metric_count, uint64_t *decisions, size_t decision_count,
                            uint64_t *fixed, size_t fixed_length, int32_t *value,
                            size_t value_length, uint64_t *place, size_t place_length);

/* How firmly each position was received: for each position i below n cell i of `fixed` and of `values` receives what
   yendrufal_firmness gives at i; the cells from n on are not touched. Both rooms are left as by decoding.
   Refusals 5 to 9. Fixed: plate 132, fixed 64, values 64, place 1. */
uint64_t yendrufal_firmness_all(const uint64_t *plate, size_t plate_length, const int16_t *samples, size_t sample_count,
                                int32_t *metrics, size_t metric_count, uint64_t *decisions, size_t decision_count,
                                uint64_t *fixed, size_t fixed_length, int32_t *values, size_t value_length,
                                uint64_t *place, size_t place_length);

/* Why a word was not the one that decoding picks. `reason` receives the number of the reason and its
   position, `difference` the difference; what a reason does not have is 0.
     YENDRUFAL_CHOSEN       it was chosen
     YENDRUFAL_NOT_IN_CODE  it is no codeword; the position is the first at which no codeword continues
                            its beginning, and n where it fails only by a one at n or beyond
     YENDRUFAL_SCORES_LESS  a codeword that scores less than the answer, by the difference (at most 262,016)
     YENDRUFAL_TIES         a codeword that scores the same and loses; the position is the first of difference
   Both rooms are left as by decoding. Refusals 5 to 9. Fixed: plate 132, reason 2, difference 1, place 1. */
uint64_t yendrufal_why_not(const uint64_t *plate, size_t plate_length, const int16_t *samples,
                           size_t sample_count, uint64_t word, int32_t *metrics,
                           size_t metric_count, uint64_t *decisions, size_t decision_count,
                           uint64_t *reason, size_t reason_length, int32_t *difference,
                           size_t difference_length, uint64_t *place, size_t place_length);

/* Another firm's trellis judged against a plate. Each line of `text` has a branch, with tabs between its fields: the word branch,
   depth, state, bit and the state that it leads to. A full path leads from state 0 of depth 0 to state 0 of depth n, and spells
   a word. `verdict` receives the number of the verdict, and a word, 0 where it has none.
     YENDRUFAL_RIGHT            the full paths spell exactly the plate's words
     YENDRUFAL_SPELLED_WRONGLY  the earliest word that tells is one that a full path spells, and none of the plate's
     YENDRUFAL_NOT_SPELLED      the earliest word that tells is one of the plate's, and no full path spells it
   Where it is YENDRUFAL_RIGHT, `states` and `branches` receive by how many states of each depth and branches of each section
   the full paths have more than our trellis, and 0 beyond the plate's length; else all 65 and all 64 are 0. `room` needs four
   cells a line (YENDRUFAL_JUDGING), which are 0 afterwards. Refusals 5, 28, 26, 27, 8, in this order.
   Fixed: plate 132, verdict 2, states 65, branches 64, place 1. */
uint64_t yendrufal_judge(const uint64_t *plate, size_t plate_length, const uint8_t *text, size_t text_length,
                         uint64_t *room, size_t room_length, uint64_t *verdict, size_t verdict_length, uint64_t *states,
                         size_t states_length, uint64_t *branches, size_t branches_length, uint64_t *place,
                         size_t place_length);

/* Listing lines. Each begins at the start of `line`; `written` receives its bytes,
   the line feed included. Refusals 5 (where a plate is taken), 11. Fixed: plate 132, written 1.
   A refused line has number and place; the place of 10 and of 17 to 20 is a line and a field of the
   sheet, both from 1, the field 0 for 10. Of other numbers `field` is not looked at. */
uint64_t yendrufal_write_plate(const uint64_t *plate, size_t plate_length, uint8_t *line,
                               size_t line_length, uint64_t *written, size_t written_length);
uint64_t yendrufal_write_profile(const uint64_t *plate, size_t plate_length, uint8_t *line,
                                 size_t line_length, uint64_t *written, size_t written_length);
uint64_t yendrufal_write_word(const uint64_t *plate, size_t plate_length, uint64_t word,
                              int32_t metric, uint64_t additions, uint64_t comparisons,
                              uint8_t *line, size_t line_length, uint64_t *written,
                              size_t written_length);
uint64_t yendrufal_write_refused(uint64_t number, uint64_t place, uint64_t field, uint8_t *line,
                                 size_t line_length, uint64_t *written, size_t written_length);
uint64_t yendrufal_write_end(uint64_t count, uint8_t *line, size_t line_length, uint64_t *written,
                             size_t written_length);

/* The line `tally` of heard lines: the numbers that yendrufal_listing names, the sum of metrics as what those above 0
   add to and what those below 0 do, without their sign; the number decoded stands at the end once more. Refusal 11.
   Fixed: written 1. */
uint64_t yendrufal_write_tally(uint64_t decoded, uint64_t refused, uint64_t repeated, uint64_t late, uint64_t missing,
                               uint64_t opposing, uint64_t zeros, uint64_t above, uint64_t below, uint8_t *line,
                               size_t line_length, uint64_t *written, size_t written_length);

/* The lines of the program `plate_weights` that are not a listing's: how many codewords have a weight, and the smallest
   weight above 0, or that there is none. Refusal 11. Fixed: written 1. */
uint64_t yendrufal_write_weight(uint64_t weight, uint64_t count, uint8_t *line, size_t line_length, uint64_t *written,
                                size_t written_length);
uint64_t yendrufal_write_least(uint64_t weight, uint8_t *line, size_t line_length, uint64_t *written,
                               size_t written_length);
uint64_t yendrufal_write_no_least(uint8_t *line, size_t line_length, uint64_t *written, size_t written_length);

/* The whole listing of a sheet, as the program `trellis` prints it: what the sheet or a block of it
   is refused for stands in the listing, and the reply is YENDRUFAL_DONE. A sheet of heard lines has
   before its end the line `tally` with nine numbers: lines decoded, refused, repeated, out of turn;
   counters missing; positions where the answer opposes its sample, zero samples; the sum of metrics,
   and the number decoded. The working rooms must be enough for every plate, and `listing` must have
   YENDRUFAL_LINE_MOST bytes for each line, as YENDRUFAL_LISTING has, where each heard line counts as
   one though a repeat prints none: refusals 8, 9, 11. The working rooms are left as by decoding each
   block in turn. Fixed: written 1. */
uint64_t yendrufal_listing(const uint8_t *sheet, size_t sheet_length, int32_t *metrics,
                           size_t metric_count, uint64_t *decisions, size_t decision_count,
                           uint8_t *listing, size_t listing_length, uint64_t *written,
                           size_t written_length);

#ifdef __cplusplus
}
#endif

/* ---- The same with types. Each call that takes a plate stands here as yendrufal_plate_NAME: a plate is one argument, what is
   written is a struct, which changes only where the reply's number is YENDRUFAL_DONE, and the place is in the reply. */

/* The 132 numbers of a plate. It may be copied; any value of it may be handed to any call. */
typedef struct yendrufal_plate {
    uint64_t words[YENDRUFAL_PLATE_WORDS];
} yendrufal_plate;

/* What a call replies; place is that of a refusal, else 0. */
typedef struct yendrufal_reply {
    uint64_t number;
    uint64_t place;
} yendrufal_reply;

/* The working rooms. They are the caller's, and may serve one call after another. */
typedef struct yendrufal_rooms {
    int32_t *metrics;
    size_t metric_count;
    uint64_t *decisions;
    size_t decision_count;
} yendrufal_rooms;

typedef struct yendrufal_answer {
    uint64_t word;
    int32_t metric;
    uint64_t additions;
    uint64_t comparisons;
} yendrufal_answer;

/* What is lent for the answers of so many blocks, and the counts that are the same for each. */
typedef struct yendrufal_batch {
    uint64_t *words;
    int32_t *scores;
    size_t count;
    uint64_t additions;
    uint64_t comparisons;
} yendrufal_batch;

/* How firmly a position was received: fixed is 1 and value its bit, or fixed is 0 and value its margin. */
typedef struct yendrufal_reading {
    uint64_t fixed;
    int32_t value;
} yendrufal_reading;

/* The same of each position: those from n on are not touched. */
typedef struct yendrufal_readings {
    uint64_t fixed[64];
    int32_t values[64];
} yendrufal_readings;

/* How many words of a code have each weight, and the smallest weight above 0, or 0 where there is none. */
typedef struct yendrufal_weighed {
    uint64_t counts[YENDRUFAL_WEIGHT_COUNTS];
    uint64_t least;
} yendrufal_weighed;

/* One of the four reasons, YENDRUFAL_CHOSEN and on, with its position or its difference. */
typedef struct yendrufal_reason {
    uint64_t number;
    uint64_t position;
    int32_t difference;
} yendrufal_reason;

/* One of the three verdicts, YENDRUFAL_RIGHT and on, with the word that it shows; and the surplus of a right listing. */
typedef struct yendrufal_judgement {
    uint64_t verdict;
    uint64_t word;
    uint64_t states[65];
    uint64_t branches[64];
} yendrufal_judgement;

static inline yendrufal_reply yendrufal_reply_of(uint64_t number, uint64_t place) {
    yendrufal_reply reply;
    reply.number = number;
    reply.place = place;
    return reply;
}

/* m, the largest profile entry. An entry over 12, which no prepared plate has, counts as 12: yendrufal_plate_widest_entry tests
   the plate. */
static inline size_t yendrufal_plate_widest(const yendrufal_plate *plate) {
    size_t widest = 0;
    for (size_t depth = 0; depth <= 64; depth++) {
        const uint64_t entry = plate->words[YENDRUFAL_PLATE_PROFILE + depth];
        if (entry > widest) widest = entry < 12 ? (size_t)entry : 12;
    }
    return widest;
}

/* The cells that a plate needs of each working room. */
static inline size_t yendrufal_plate_metrics_needed(const yendrufal_plate *plate) {
    return YENDRUFAL_METRICS(yendrufal_plate_widest(plate));
}

static inline size_t yendrufal_plate_decisions_needed(const yendrufal_plate *plate) {
    const uint64_t n = plate->words[YENDRUFAL_PLATE_N];
    return YENDRUFAL_DECISIONS(n < 64 ? n : 64, yendrufal_plate_widest(plate));
}

static inline yendrufal_reply yendrufal_plate_prepare(uint64_t n, uint64_t kind, const uint64_t *rows, size_t row_count,
                                                      uint64_t mask, yendrufal_plate *plate) {
    uint64_t place = 0;
    const uint64_t number =
        yendrufal_prepare(n, kind, rows, row_count, mask, plate->words, YENDRUFAL_PLATE_WORDS, &place, 1);
    return yendrufal_reply_of(number, place);
}

/* `field` receives the field of a sheet's bad line, else 0; the reply's place is the line. */
static inline yendrufal_reply yendrufal_plate_plate_of_sheet(const uint8_t *sheet, size_t sheet_length,
                                                             yendrufal_plate *plate, uint64_t *order, uint64_t *field) {
    uint64_t place[2] = {0, 0};
    const uint64_t number = yendrufal_plate_of_sheet(sheet, sheet_length, plate->words, YENDRUFAL_PLATE_WORDS, order, 1, place, 2);
    *field = place[1];
    return yendrufal_reply_of(number, place[0]);
}

static inline yendrufal_reply yendrufal_plate_branch(const yendrufal_plate *plate, uint64_t depth, uint64_t state,
                                                     uint64_t bit, uint64_t *next) {
    return yendrufal_reply_of(yendrufal_branch(plate->words, YENDRUFAL_PLATE_WORDS, depth, state, bit, next, 1), 0);
}

static inline yendrufal_reply yendrufal_plate_encode(const yendrufal_plate *plate, uint64_t information, uint64_t *word) {
    return yendrufal_reply_of(yendrufal_encode(plate->words, YENDRUFAL_PLATE_WORDS, information, word, 1), 0);
}

static inline yendrufal_reply yendrufal_plate_read_back(const yendrufal_plate *plate, uint64_t word,
                                                        uint64_t *information) {
    return yendrufal_reply_of(yendrufal_read_back(plate->words, YENDRUFAL_PLATE_WORDS, word, information, 1), 0);
}

static inline yendrufal_reply yendrufal_plate_widest_entry(const yendrufal_plate *plate, uint64_t *widest) {
    return yendrufal_reply_of(yendrufal_widest_entry(plate->words, YENDRUFAL_PLATE_WORDS, widest, 1), 0);
}

/* `working` has YENDRUFAL_WEIGHT_WORKING(m) cells or more. */
static inline yendrufal_reply yendrufal_plate_weights(const yendrufal_plate *plate, uint64_t *working,
                                                      size_t working_length, yendrufal_weighed *weighed) {
    return yendrufal_reply_of(yendrufal_weights(plate->words, YENDRUFAL_PLATE_WORDS, weighed->counts,
                                                YENDRUFAL_WEIGHT_COUNTS, working, working_length, &weighed->least, 1),
                              0);
}

static inline yendrufal_reply yendrufal_plate_decode(const yendrufal_plate *plate, const int16_t *samples,
                                                     size_t sample_count, const yendrufal_rooms *rooms,
                                                     yendrufal_answer *answer) {
    uint64_t counts[2] = {0, 0}, place = 0;
    const uint64_t number =
        yendrufal_decode(plate->words, YENDRUFAL_PLATE_WORDS, samples, sample_count, rooms->metrics, rooms->metric_count,
                         rooms->decisions, rooms->decision_count, &answer->word, 1, &answer->metric, 1, counts, 2, &place, 1);
    if (number == YENDRUFAL_DONE) {
        answer->additions = counts[0];
        answer->comparisons = counts[1];
    }
    return yendrufal_reply_of(number, place);
}

/* Word and metric of block b at place b of what `batch` lends. */
static inline yendrufal_reply yendrufal_plate_decode_blocks(const yendrufal_plate *plate, const int16_t *samples,
                                                            size_t sample_count, const yendrufal_rooms *rooms,
                                                            yendrufal_batch *batch) {
    uint64_t counts[2] = {0, 0}, place = 0;
    const uint64_t number = yendrufal_decode_blocks(plate->words, YENDRUFAL_PLATE_WORDS, samples, sample_count,
                                                    rooms->metrics, rooms->metric_count, rooms->decisions,
                                                    rooms->decision_count, batch->words, batch->count, batch->scores,
                                                    batch->count, counts, 2, &place, 1);
    if (number == YENDRUFAL_DONE) {
        batch->additions = counts[0];
        batch->comparisons = counts[1];
    }
    return yendrufal_reply_of(number, place);
}

/* Leaves answer->word, and needs no decisions in `rooms`. */
static inline yendrufal_reply yendrufal_plate_metric(const yendrufal_plate *plate, const int16_t *samples,
                                                     size_t sample_count, const yendrufal_rooms *rooms,
                                                     yendrufal_answer *answer) {
    uint64_t counts[2] = {0, 0}, place = 0;
    const uint64_t number = yendrufal_metric(plate->words, YENDRUFAL_PLATE_WORDS, samples, sample_count, rooms->metrics,
                                             rooms->metric_count, &answer->metric, 1, counts, 2, &place, 1);
    if (number == YENDRUFAL_DONE) {
        answer->additions = counts[0];
        answer->comparisons = counts[1];
    }
    return yendrufal_reply_of(number, place);
}

/* Leaves answer->metric. */
static inline yendrufal_reply yendrufal_plate_word(const yendrufal_plate *plate, const int16_t *samples,
                                                   size_t sample_count, const yendrufal_rooms *rooms,
                                                   yendrufal_answer *answer) {
    uint64_t counts[2] = {0, 0}, place = 0;
    const uint64_t number =
        yendrufal_word(plate->words, YENDRUFAL_PLATE_WORDS, samples, sample_count, rooms->metrics, rooms->metric_count,
                       rooms->decisions, rooms->decision_count, &answer->word, 1, counts, 2, &place, 1);
    if (number == YENDRUFAL_DONE) {
        answer->additions = counts[0];
        answer->comparisons = counts[1];
    }
    return yendrufal_reply_of(number, place);
}

static inline yendrufal_reply yendrufal_plate_firmness(const yendrufal_plate *plate, const int16_t *samples,
                                                       size_t sample_count, uint64_t position,
                                                       const yendrufal_rooms *rooms, yendrufal_reading *reading) {
    uint64_t place = 0;
    const uint64_t number = yendrufal_firmness(plate->words, YENDRUFAL_PLATE_WORDS, samples, sample_count, position,
                                               rooms->metrics, rooms->metric_count, rooms->decisions,
                                               rooms->decision_count, &reading->fixed, 1, &reading->value, 1, &place, 1);
    return yendrufal_reply_of(number, place);
}

static inline yendrufal_reply yendrufal_plate_firmness_all(const yendrufal_plate *plate, const int16_t *samples,
                                                           size_t sample_count, const yendrufal_rooms *rooms,
                                                           yendrufal_readings *readings) {
    uint64_t place = 0;
    const uint64_t number =
        yendrufal_firmness_all(plate->words, YENDRUFAL_PLATE_WORDS, samples, sample_count, rooms->metrics,
                               rooms->metric_count, rooms->decisions, rooms->decision_count, readings->fixed, 64,
                               readings->values, 64, &place, 1);
    return yendrufal_reply_of(number, place);
}

static inline yendrufal_reply yendrufal_plate_why_not(const yendrufal_plate *plate, const int16_t *samples,
                                                      size_t sample_count, uint64_t word, const yendrufal_rooms *rooms,
                                                      yendrufal_reason *reason) {
    uint64_t told[2] = {0, 0}, place = 0;
    const uint64_t number =
        yendrufal_why_not(plate->words, YENDRUFAL_PLATE_WORDS, samples, sample_count, word, rooms->metrics,
                          rooms->metric_count, rooms->decisions, rooms->decision_count, told, 2, &reason->difference, 1,
                          &place, 1);
    if (number == YENDRUFAL_DONE) {
        reason->number = told[0];
        reason->position = told[1];
    }
    return yendrufal_reply_of(number, place);
}

static inline yendrufal_reply yendrufal_plate_judge(const yendrufal_plate *plate, const uint8_t *text, size_t text_length,
                                                    uint64_t *room, size_t room_length, yendrufal_judgement *judgement) {
    uint64_t told[2] = {0, 0}, place = 0;
    const uint64_t number = yendrufal_judge(plate->words, YENDRUFAL_PLATE_WORDS, text, text_length, room, room_length, told,
                                            2, judgement->states, 65, judgement->branches, 64, &place, 1);
    if (number == YENDRUFAL_DONE) {
        judgement->verdict = told[0];
        judgement->word = told[1];
    }
    return yendrufal_reply_of(number, place);
}

static inline yendrufal_reply yendrufal_plate_write_plate(const yendrufal_plate *plate, uint8_t *line,
                                                          size_t line_length, uint64_t *written) {
    return yendrufal_reply_of(yendrufal_write_plate(plate->words, YENDRUFAL_PLATE_WORDS, line, line_length, written, 1), 0);
}

static inline yendrufal_reply yendrufal_plate_write_profile(const yendrufal_plate *plate, uint8_t *line,
                                                            size_t line_length, uint64_t *written) {
    return yendrufal_reply_of(yendrufal_write_profile(plate->words, YENDRUFAL_PLATE_WORDS, line, line_length, written, 1),
                              0);
}

static inline yendrufal_reply yendrufal_plate_write_word(const yendrufal_plate *plate, const yendrufal_answer *answer,
                                                         uint8_t *line, size_t line_length, uint64_t *written) {
    return yendrufal_reply_of(yendrufal_write_word(plate->words, YENDRUFAL_PLATE_WORDS, answer->word, answer->metric,
                                                   answer->additions, answer->comparisons, line, line_length, written,
                                                   1),
                              0);
}

/* A reply's number in words: those of docs/REFUSALS.md, and words for the others. */
static inline const char *yendrufal_refusal_words(uint64_t number) {
    static const char *const words[] = {
        "done",
        "length is not 1 to 64",
        "more than 64 rows",
        "a row has a one beyond its length",
        "plate too wide",
        "not a prepared plate",
        "number of samples is not n",
        "sample outside -2047 to 2047",
        "working room too short",
        "decision room too short",
        "line missing or not ended",
        "line longer than its room",
        "no such depth, state or bit",
        "information beyond k",
        "not a codeword",
        "input over 32,768 bytes",
        "alist fault",
        "first field unknown or out of its turn",
        "wrong number of fields",
        "bad number, letter or order",
        "row or mask of wrong length or character",
        "position is n or beyond",
        "k is 64",
        "mask has a one beyond its length",
        "step or top level out of range",
        "a heard value is not a number",
        "bad branch line or depth order",
        "branch told twice",
        "more than 1,024 branch lines",
    };
    if (number < sizeof words / sizeof words[0]) return words[number];
    if (number == YENDRUFAL_NO_BRANCH) return "no branch with this bit";
    if (number == YENDRUFAL_SHAPE) return "a run too short for its fixed use, or an unknown kind";
    return "no reply of this library";
}

#endif
