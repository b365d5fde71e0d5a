/* The entries of libreferee_c.a (`tools/make referee_c`). Contracts: crates/referee_c/src/lib.rt.
 *
 * Units and axes. Lengths are metres, angles radians. The origin is the centre mark, x points to the left goal as the GameController shows it, z up, and y completes a
 * right-handed system. With REFEREE_SIDE_MAPPING_HOME_DEFENDS_LEFT_GOAL Home's own goal is at positive x.
 *
 * Slices. A slice is a pointer and then the number of its elements. The pointer of an empty slice is not null but aligned for its element: any array of that type does, with the
 * length 0. Memory that is written to may not overlap what the same call reads.
 *
 * Float mode. What the entries answer is said of IEEE 754's default mode: rounding to nearest, subnormal numbers kept. A program that calls fesetround, sets flush-to-zero or
 * denormals-are-zero, or is linked with -ffast-math, runs in another. There the entries that compute with floats and answer an int64_t (referee_sheet, referee_display, referee_coach,
 * referee_place, referee_candidates) answer REFEREE_OTHER_FLOAT_MODE before anything else and keep every byte; referee_check, referee_read_sheet and referee_read_item compute with none,
 * never answer it, and answer the same in every mode. The three entries that answer a float (referee_hypot, referee_normalize_angle, referee_rem_euclid) have no answer for it: they want the
 * default mode and do not look.
 *
 * Threads and stack. No entry has state of its own, so that threads may call them at the same time, each with its own memory to write to. A call takes no heap and less than
 * 30 kB of stack (docs/BENCHMARKS.md has what was measured).
 */
#ifndef REFEREE_H
#define REFEREE_H

#include <stddef.h>
#include <stdint.h>

/* The words of a situation: how many there are, the place of each and its values. A float is its bit pattern. */
#include "referee_words.h"

#ifdef __cplusplus
extern "C" {
#endif

/* Every sheet has room here: eight lists of at most 20 players, a kicker, a ball judgment, a place and the header are 166 lines of 45 bytes. */
#define REFEREE_SHEET_BYTES 7470

/* The lines that the display shows under the header, and room for every sheet that it shows: these and the header. */
#define REFEREE_DISPLAY_LINES 12
#define REFEREE_DISPLAY_BYTES 585

/* Every line for the coach has room here: the longest is `Home 20 illegal unless kicker: only the kicker may be in the centre circle`. */
#define REFEREE_COACH_BYTES 74

/* The words of a place. */
#define REFEREE_PLACE_WORDS 5

/* The words of an item of a sheet. */
#define REFEREE_ITEM_WORDS 4

/* No list of candidates has more places than this. */
#define REFEREE_CANDIDATES 8200

/* Answers below 0 beside the refusals, which are -1 to -12: the words are no situation, the side is neither Home nor Away, or fewer words are lent than a place or an item has; the
 * processor's float mode is not the default. */
#define REFEREE_MALFORMED (-100)
#define REFEREE_OTHER_FLOAT_MODE (-101)

/* Whether the words are a situation. Answers 0 where they are; n from 1 where words[n - 1] is the first that is none of its column's values; REFEREE_MALFORMED for
 * another number of words than REFEREE_WORDS. */
int64_t referee_check(const uint32_t *words, size_t words_len);

/* Decides on the situation that the words are, with the earlier places xs and ys of the batch, and writes its sheet at the front of the lent bytes; the bytes
 * after it are kept. A line of kind 4 names a player whose near edge is past the edge of the carpet by more than its allowance: as far as its centre is past it, along x or y, less its
 * radius. On lines of kind 7, 8 and 9 a zero of either sign is 0. Answers the number of bytes written, or -n for the refusal n (1 to 5, then 7), or REFEREE_MALFORMED, or
 * REFEREE_OTHER_FLOAT_MODE; where the answer is below 0 nothing is written. */
int64_t referee_sheet(const uint32_t *words, size_t words_len, const float *xs, size_t xs_len, const float *ys, size_t ys_len, uint8_t *sheet,
                      size_t sheet_len);

/* The same sheet for the display in the corridor, which shows at most REFEREE_DISPLAY_LINES under the header: the situation is handed over as to referee_sheet, and the lines are the same.
 * Answers as referee_sheet does, and -12 for a sheet of more lines, however many bytes are lent: the refusals are 1 to 5, then 12, then 7. Where the answer is below 0 nothing is
 * written. */
int64_t referee_display(const uint32_t *words, size_t words_len, const float *xs, size_t xs_len, const float *ys, size_t ys_len, uint8_t *sheet,
                        size_t sheet_len);

/* Writes the line that tells why a player does not stand legally, as `Home 4 illegal: own penalty area`, at the front of the lent text; the bytes after it are kept. The line is
 * ASCII with no line feed and no NUL at the end; docs/COACH.md has its words. The situation is handed over as to referee_sheet, the player by its side, REFEREE_SIDE_HOME or
 * REFEREE_SIDE_AWAY, and its number, 1 to 20. Answers the line's length, at most REFEREE_COACH_BYTES; 0 for a player that stands legally, and so for one that is absent, penalised or
 * exempt; or -n for the refusal n (1 to 5, where another number is 4, then 8 where the text is shorter than the line), or REFEREE_MALFORMED, or REFEREE_OTHER_FLOAT_MODE. Where the
 * answer is 0 or below nothing is written. */
int64_t referee_coach(const uint32_t *words, size_t words_len, const float *xs, size_t xs_len, const float *ys, size_t ys_len, uint32_t side, uint32_t number,
                      uint8_t *text, size_t text_len);

/* Decides as referee_sheet does, and writes the place that the situation wishes for into the first REFEREE_PLACE_WORDS of the lent words; those after them are kept. They are the
 * side and the number, for the ball 2 and 0, and the patterns of x, y, and z or the heading, as decided: other than on the sheet, a zero has its sign. Answers 1; 0 where there is no
 * place; or -n for the refusal n (1 to 5), or REFEREE_MALFORMED, before any refusal where fewer words are lent, or REFEREE_OTHER_FLOAT_MODE. Where the answer is 0 or below nothing is
 * written. */
int64_t referee_place(const uint32_t *words, size_t words_len, const float *xs, size_t xs_len, const float *ys, size_t ys_len, uint32_t *place,
                      size_t place_len);

/* Whether the text, all of it, is a sheet: hand over as many bytes as referee_sheet has answered. Answers how many lines follow the header, at most 165, or -n for the first refusal:
 * 9 where a line is not 45 bytes in column form, or a number has a leading zero or exceeds 32 bits; 10 where the first line has kind 0 and its count differs from the lines after
 * it; 11 for any other breach, an empty text included. Nothing is written. */
int64_t referee_read_sheet(const uint8_t *text, size_t text_len);

/* Reads the item of one line of a sheet, counted after the header from 1: writes its kind, side, number and value into the first REFEREE_ITEM_WORDS of the lent words; those after
 * them are kept. In kinds 7, 8 and 9 the value is the pattern of a finite float, that of a zero 0. Answers 1; 0 where there is none, for line 0 and for every number past the last
 * line; or -n for the refusal n of the text (9 to 11, as referee_read_sheet, whatever line is asked for), or REFEREE_MALFORMED, before any refusal where fewer words are lent. Where
 * the answer is 0 or below nothing is written. */
int64_t referee_read_item(const uint8_t *text, size_t text_len, uint64_t line, uint32_t *item, size_t item_len);

/* Fills the front of the lent list with the candidates for a penalised player's place and keeps the rest. Answers how many there are, or -n for the refusal n
 * (5 or 6), or REFEREE_OTHER_FLOAT_MODE; where the answer is below 0 nothing is written. */
int64_t referee_candidates(float start, float min, float max, float step, float *list, size_t list_len);

/* The f32 nearest to the exact root of x^2 + y^2, ties to even. */
float referee_hypot(float x, float y);

/* The angle in [-pi, pi), by f32 arithmetic as the rules have it. */
float referee_normalize_angle(float angle);

/* The remainder of x by y that is not negative. */
float referee_rem_euclid(float x, float y);

#ifdef __cplusplus
}
#endif

#endif
