/* Tries referee_sheet, referee_display, referee_coach, referee_place, referee_candidates, referee_check, referee_read_sheet and referee_read_item of libreferee_c.a as a C program calls
 * them, in every float mode.
 *
 * usage: entries CASE_A SHEET default|flushing
 *
 * CASE_A has case A as `judge` reads it, SHEET its sheet; the third word says in which mode the program is to start. A line for each check with tabs in it: `ok` and the name,
 * or `FAILED`, the name and what was seen. The last line is `end`. Everything is compared as whole numbers, so that no mode has a part in it.
 */
#include <fenv.h>
#include <stdbool.h>
#include <stdio.h>
#include <stdlib.h>
#include <string.h>
#include <xmmintrin.h>

#include "referee.h"

/* Bits of MXCSR: subnormal operands are zeros, subnormal results are zeros, all exceptions masked; the rounding is in bits 13 and 14. */
enum { DAZ = 0x0040, FTZ = 0x8000, DEFAULT = 0x1f80, ROUNDING = 13 };

enum { ROOM = REFEREE_SHEET_BYTES + 100 };

typedef struct {
    uint32_t words[REFEREE_WORDS];
    char sheet[256];
} Case;

static Case cases[3];
static char seen[200];

/* A kick-off that no side takes on A's field, with the ball and twelve players on the centre mark, Home 1 to 6 and Away 1 to 6, and the same with Away 7. Each player is in the opponents'
 * half, which is illegal, and nothing else is on the sheet. Thirteen also with a distance of 0.01 between placed players, which is refused, and with sides of 2, which are no situation. */
static uint32_t twelve[REFEREE_WORDS], thirteen[REFEREE_WORDS], thirteen_and_distance[REFEREE_WORDS], thirteen_and_sides[REFEREE_WORDS];

#define TWELVE_LINES \
    "          1          0          1          1\n" \
    "          1          0          2          1\n" \
    "          1          0          3          1\n" \
    "          1          0          4          1\n" \
    "          1          0          5          1\n" \
    "          1          0          6          1\n" \
    "          1          1          1          1\n" \
    "          1          1          2          1\n" \
    "          1          1          3          1\n" \
    "          1          1          4          1\n" \
    "          1          1          5          1\n" \
    "          1          1          6          1\n"
static const char of_twelve[] = "          0          2         12          1\n" TWELVE_LINES;
static const char of_thirteen[] = "          0          2         13          1\n" TWELVE_LINES
                                  "          1          1          7          1\n";

/* A call of referee_sheet, or of referee_display, with so many lent bytes, what it answers and what it writes. */
typedef struct {
    const char *name;
    bool display;
    const uint32_t *words;
    size_t length, room;
    int answer;
    const char *sheet;
} Writing;

static const Writing writings[] = {
    {"case A", false, cases[0].words, REFEREE_WORDS, REFEREE_SHEET_BYTES, 135, cases[0].sheet},
    {"a ball at the least positive x", false, cases[1].words, REFEREE_WORDS, REFEREE_SHEET_BYTES, 135, cases[1].sheet},
    {"a defender at the penalty area", false, cases[2].words, REFEREE_WORDS, REFEREE_SHEET_BYTES, 45, cases[2].sheet},
    {"thirteen lines", false, thirteen, REFEREE_WORDS, 630, 630, of_thirteen},
    {"-7 where a byte is missing of thirteen lines", false, thirteen, REFEREE_WORDS, 629, -7, ""},
    {"-100 of 562 words", false, cases[0].words, REFEREE_WORDS - 1, REFEREE_SHEET_BYTES, -100, ""},
    {"-100 without words", false, cases[0].words, 0, REFEREE_SHEET_BYTES, -100, ""},
    {"case A", true, cases[0].words, REFEREE_WORDS, REFEREE_DISPLAY_BYTES, 135, cases[0].sheet},
    {"twelve lines", true, twelve, REFEREE_WORDS, REFEREE_DISPLAY_BYTES, 585, of_twelve},
    {"bytes past twelve lines are kept", true, twelve, REFEREE_WORDS, REFEREE_SHEET_BYTES, 585, of_twelve},
    {"-7 where a byte is missing of twelve lines", true, twelve, REFEREE_WORDS, 584, -7, ""},
    {"-7 of twelve lines without room", true, twelve, REFEREE_WORDS, 0, -7, ""},
    {"-12 of thirteen lines", true, thirteen, REFEREE_WORDS, REFEREE_SHEET_BYTES, -12, ""},
    {"-12 before -7", true, thirteen, REFEREE_WORDS, 0, -12, ""},
    {"-5 before -12", true, thirteen_and_distance, REFEREE_WORDS, REFEREE_SHEET_BYTES, -5, ""},
    {"-5 before -12 and -7", true, thirteen_and_distance, REFEREE_WORDS, 0, -5, ""},
    {"-100 of 562 words", true, thirteen, REFEREE_WORDS - 1, REFEREE_SHEET_BYTES, -100, ""},
    {"-100 of a word outside its column", true, thirteen_and_sides, REFEREE_WORDS, REFEREE_SHEET_BYTES, -100, ""},
};

enum { WRITINGS = sizeof writings / sizeof writings[0] };

/* Home's kick-off on A's field in Set, the same in Playing, and the first with a distance of 0.01 between placed players and with a ball at z NaN, which are refused. Home 2, 6
 * and 20 stand on the centre mark, of whom Home 6 is penalised; Home 3 stands legally, Home 1 is absent, and Away 2 is in the other half. */
static uint32_t in_set[REFEREE_WORDS], in_playing[REFEREE_WORDS], with_distance[REFEREE_WORDS], with_ball[REFEREE_WORDS];

/* A call of referee_coach with so many lent bytes, what it answers and what it writes. */
typedef struct {
    const char *name;
    const uint32_t *words;
    size_t length;
    uint32_t side, number;
    size_t room;
    int answer;
    const char *line;
} Coach;

static const Coach coaches[] = {
    {"a line", in_set, REFEREE_WORDS, 0, 2, REFEREE_COACH_BYTES, 34, "Home 2 illegal: on the centre mark"},
    {"exact room", in_set, REFEREE_WORDS, 0, 2, 34, 34, "Home 2 illegal: on the centre mark"},
    {"-8 where a byte is missing", in_set, REFEREE_WORDS, 0, 2, 33, -8, ""},
    {"-8 without room", in_set, REFEREE_WORDS, 0, 2, 0, -8, ""},
    {"the line in Playing", in_playing, REFEREE_WORDS, 0, 2, REFEREE_COACH_BYTES, 73, "Home 2 illegal unless kicker: only the kicker may be in the centre circle"},
    {"the longest line", in_playing, REFEREE_WORDS, 0, 20, REFEREE_COACH_BYTES, REFEREE_COACH_BYTES, "Home 20 illegal unless kicker: only the kicker may be in the centre circle"},
    {"-8 where a byte is missing of the longest", in_playing, REFEREE_WORDS, 0, 20, REFEREE_COACH_BYTES - 1, -8, ""},
    {"a line of Away", in_set, REFEREE_WORDS, 1, 2, REFEREE_COACH_BYTES, 29, "Away 2 illegal: opponent half"},
    {"0 at a legal player", in_set, REFEREE_WORDS, 0, 3, REFEREE_COACH_BYTES, 0, ""},
    {"0 at a legal player without room", in_set, REFEREE_WORDS, 0, 3, 0, 0, ""},
    {"0 at an absent player", in_set, REFEREE_WORDS, 0, 1, REFEREE_COACH_BYTES, 0, ""},
    {"0 at a penalised player", in_set, REFEREE_WORDS, 0, 6, REFEREE_COACH_BYTES, 0, ""},
    {"0 at a defender at the penalty area", cases[2].words, REFEREE_WORDS, 1, 2, REFEREE_COACH_BYTES, 0, ""},
    {"-4 of number 0", in_set, REFEREE_WORDS, 0, 0, REFEREE_COACH_BYTES, -4, ""},
    {"-4 of number 21", in_set, REFEREE_WORDS, 0, 21, REFEREE_COACH_BYTES, -4, ""},
    {"-4 of number 257", in_set, REFEREE_WORDS, 0, 257, REFEREE_COACH_BYTES, -4, ""},
    {"-3 before -4", with_ball, REFEREE_WORDS, 0, 21, REFEREE_COACH_BYTES, -3, ""},
    {"-4 before -5", with_distance, REFEREE_WORDS, 0, 21, REFEREE_COACH_BYTES, -4, ""},
    {"-5 before -8", with_distance, REFEREE_WORDS, 0, 2, 0, -5, ""},
    {"-100 of side 2", in_set, REFEREE_WORDS, 2, 2, REFEREE_COACH_BYTES, -100, ""},
    {"-100 of 562 words", in_set, REFEREE_WORDS - 1, 0, 2, REFEREE_COACH_BYTES, -100, ""},
    {"-100 before -3", with_ball, REFEREE_WORDS, 2, 21, 0, -100, ""},
};

enum { COACHES = sizeof coaches / sizeof coaches[0] };

/* Places that are wished for on A's field. At a direct free kick the ball stays at (0, 0), or with the ends exchanged at (-0, -0), and its radius, 0.125, is z. Document 01's
 * penalty place of Home 2 of radius 0.25 at (0, -0), with nobody else there: 5, -5.25 and PI/2. Away's goalkeeper of radius 0.25 at (-6, 0.5) is placed on the centre of its goal
 * line, x = -(7 - 1/32), and keeps its y, which is between the posts, and its heading, -0. The free kick is also refused: with a ball at z NaN. */
static uint32_t free_kick[REFEREE_WORDS], turned[REFEREE_WORDS], penalty[REFEREE_WORDS], keeper[REFEREE_WORDS], refused_kick[REFEREE_WORDS];

/* A call of referee_place with so many lent words, what it answers and what it writes. */
typedef struct {
    const char *name;
    const uint32_t *words;
    size_t length, room;
    int answer;
    uint32_t place[REFEREE_PLACE_WORDS];
} Placing;

enum { PLACE_ROOM = REFEREE_PLACE_WORDS + 4 };

static const Placing placings[] = {
    {"0 without a wish", cases[0].words, REFEREE_WORDS, REFEREE_PLACE_WORDS, 0, {0}},
    {"a free kick at the centre mark", free_kick, REFEREE_WORDS, REFEREE_PLACE_WORDS, 1, {2, 0, 0, 0, 0x3e000000}},
    {"the same turned, zeros with their sign", turned, REFEREE_WORDS, REFEREE_PLACE_WORDS, 1, {2, 0, 0x80000000, 0x80000000, 0x3e000000}},
    {"words past the fifth are kept", turned, REFEREE_WORDS, PLACE_ROOM, 1, {2, 0, 0x80000000, 0x80000000, 0x3e000000}},
    {"a penalty place", penalty, REFEREE_WORDS, REFEREE_PLACE_WORDS, 1, {0, 2, 0x40a00000, 0xc0a80000, 0x3fc90fdb}},
    {"a goalkeeper with the heading -0", keeper, REFEREE_WORDS, REFEREE_PLACE_WORDS, 1, {1, 1, 0xc0df0000, 0x3f000000, 0x80000000}},
    {"-3", refused_kick, REFEREE_WORDS, REFEREE_PLACE_WORDS, -3, {0}},
    {"-100 of four words lent", free_kick, REFEREE_WORDS, REFEREE_PLACE_WORDS - 1, -100, {0}},
    {"-100 without words lent", free_kick, REFEREE_WORDS, 0, -100, {0}},
    {"-100 of four words lent without a wish", cases[0].words, REFEREE_WORDS, REFEREE_PLACE_WORDS - 1, -100, {0}},
    {"-100 of four words lent before -3", refused_kick, REFEREE_WORDS, REFEREE_PLACE_WORDS - 1, -100, {0}},
    {"-100 of 562 words", free_kick, REFEREE_WORDS - 1, REFEREE_PLACE_WORDS, -100, {0}},
};

enum { PLACINGS = sizeof placings / sizeof placings[0] };

/* Texts that are read. `every_kind` has lines of all kinds: Home 4 illegal; Home 9 and Home 3 too many; Home 2 the kicker; Away 6 leaving; Away 8 moved; a throw-in for Away; and Home 20
 * placed at -2.5, 0 and PI/2. In the others something is wrong, by request 3: a leading zero, which is 9, in the last line; a count of 1 before two lines, which is 10; kinds that
 * fall, a place without its third number or with the pattern of -0, which are 11; and several at once. */
static const char every_kind[] = "          0          2         10          1\n"
                                 "          1          0          4          1\n"
                                 "          2          0          9          1\n"
                                 "          2          0          3          2\n"
                                 "          3          0          2          0\n"
                                 "          4          1          6          0\n"
                                 "          5          1          8          0\n"
                                 "          6          1          4          0\n"
                                 "          7          0         20 3223322624\n"
                                 "          8          0         20          0\n"
                                 "          9          0         20 1070141403\n";
static const char with_zero[] = "          0          2          2          1\n"
                                "          2          0          5          1\n"
                                "          6          1         01          0\n";
static const char with_count[] = "          0          2          1          1\n"
                                 "          2          0          5          1\n"
                                 "          6          1          1          0\n";
static const char with_fall[] = "          0          2          2          1\n"
                                "          6          1          1          0\n"
                                "          2          0          5          1\n";
static const char without_third[] = "          0          2          2          1\n"
                                    "          7          2          0          0\n"
                                    "          8          2          0          0\n";
static const char with_minus_zero[] = "          0          2          3          1\n"
                                      "          7          2          0 2147483648\n"
                                      "          8          2          0          0\n"
                                      "          9          2          0          0\n";
static const char count_and_zero[] = "          0          2          1          1\n"
                                     "          2          0          5          1\n"
                                     "          6          1         01          0\n";
static const char count_and_fall[] = "          0          0          1          1\n"
                                     "          6          1          1          0\n"
                                     "          2          0          5          1\n";
static const char all_three[] = "          0          0          1          1\n"
                                "          6          1          1          0\n"
                                "          2          0         05          1\n";

/* A call of referee_read_sheet, by the first so many bytes of a text, where 0 stands for all of them; and what it answers. */
typedef struct {
    const char *name, *text;
    size_t length;
    int answer;
} Reading;

static const Reading readings[] = {
    {"case A", cases[0].sheet, 0, 2},
    {"a sheet of the header alone", cases[2].sheet, 0, 0},
    {"a line of every kind", every_kind, 0, 10},
    {"-9 where the last byte is missing", cases[0].sheet, 134, -9},
    {"-9 of one byte", cases[0].sheet, 1, -9},
    {"-9 of a leading zero", with_zero, 0, -9},
    {"-9 of 4294967296", "          0          2          0 4294967296\n", 0, -9},
    {"-9 of a tab for a blank", "          0\t         2          0          1\n", 0, -9},
    {"-9 of a number at the left of its columns", "0                    2          0          1\n", 0, -9},
    {"-10 of a count too low", with_count, 0, -10},
    {"-10 of a count too great", cases[0].sheet, 90, -10},
    {"-10 of 4294967295", "          0          2 4294967295          1\n", 0, -10},
    {"-11 of an empty text", "", 0, -11},
    {"-11 without a header", "          2          0          5          1\n", 0, -11},
    {"-11 of a header for Home", "          0          0          0          1\n", 0, -11},
    {"-11 of kinds that fall", with_fall, 0, -11},
    {"-11 of a place without its third number", without_third, 0, -11},
    {"-11 of 2147483648", with_minus_zero, 0, -11},
    {"-9 before -10", count_and_zero, 0, -9},
    {"-10 before -11", count_and_fall, 0, -10},
    {"-9 before -10 and -11", all_three, 0, -9},
};

enum { READINGS = sizeof readings / sizeof readings[0] };

/* A call of referee_read_item with so many lent words, what it answers and what it writes. */
typedef struct {
    const char *name, *text;
    uint64_t line;
    size_t room;
    int answer;
    uint32_t item[REFEREE_ITEM_WORDS];
} Asking;

enum { ITEM_ROOM = REFEREE_ITEM_WORDS + 4 };

static const Asking askings[] = {
    {"the first line", cases[0].sheet, 1, REFEREE_ITEM_WORDS, 1, {2, 0, 5, 1}},
    {"the last line", cases[0].sheet, 2, REFEREE_ITEM_WORDS, 1, {6, 1, 1, 0}},
    {"words past the fourth are kept", cases[0].sheet, 2, 6, 1, {6, 1, 1, 0}},
    {"a verdict", every_kind, 1, REFEREE_ITEM_WORDS, 1, {1, 0, 4, 1}},
    {"the second of an excess", every_kind, 3, REFEREE_ITEM_WORDS, 1, {2, 0, 3, 2}},
    {"x of a place", every_kind, 8, REFEREE_ITEM_WORDS, 1, {7, 0, 20, 0xc0200000}},
    {"y of a place", every_kind, 9, REFEREE_ITEM_WORDS, 1, {8, 0, 20, 0}},
    {"the heading of a place", every_kind, 10, REFEREE_ITEM_WORDS, 1, {9, 0, 20, 0x3fc90fdb}},
    {"0 of line 0", cases[0].sheet, 0, REFEREE_ITEM_WORDS, 0, {0}},
    {"0 past the last line", cases[0].sheet, 3, REFEREE_ITEM_WORDS, 0, {0}},
    {"0 of line 2^32 + 1", cases[0].sheet, 4294967297, REFEREE_ITEM_WORDS, 0, {0}},
    {"0 of line 2^64 - 1", cases[0].sheet, UINT64_MAX, REFEREE_ITEM_WORDS, 0, {0}},
    {"0 of line 1 of a sheet without one", cases[2].sheet, 1, REFEREE_ITEM_WORDS, 0, {0}},
    {"-9", with_zero, 1, REFEREE_ITEM_WORDS, -9, {0}},
    {"-10", with_count, 1, 6, -10, {0}},
    {"-11", with_fall, 1, REFEREE_ITEM_WORDS, -11, {0}},
    {"-9 of line 0", all_three, 0, REFEREE_ITEM_WORDS, -9, {0}},
    {"-10 past the last line", count_and_fall, 3, REFEREE_ITEM_WORDS, -10, {0}},
    {"-11 of line 2^64 - 1", with_fall, UINT64_MAX, REFEREE_ITEM_WORDS, -11, {0}},
    {"-11 of an empty text", "", 0, REFEREE_ITEM_WORDS, -11, {0}},
    {"-100 of three words lent", cases[0].sheet, 1, 3, -100, {0}},
    {"-100 without words lent", cases[0].sheet, 1, 0, -100, {0}},
    {"-100 of three words lent where there is no item", cases[0].sheet, 0, 3, -100, {0}},
    {"-100 of three words lent before -9", with_zero, 1, 3, -100, {0}},
    {"-100 without words lent before -11", "", 1, 0, -100, {0}},
};

enum { ASKINGS = sizeof askings / sizeof askings[0] };

static void stop(const char *why) {
    printf("FAILED\ttools/checks/entries.c\t%s\n", why);
    exit(2);
}

/* What was seen first of a check that fails. */
static bool wrong(const char *what, const char *name, long long answer, const char *text) {
    if (seen[0] == 0)
        snprintf(seen, sizeof seen, "%s, %s: answer %lld%s", what, name, answer, text);
    return false;
}

static void tell(const char *name, bool right) {
    if (right)
        printf("ok\t%s\n", name);
    else
        printf("FAILED\t%s\t%s\n", name, seen);
    seen[0] = 0;
}

static uint8_t filler(size_t i) {
    return (uint8_t)(i * 31 + 7);
}

static const char *entry_of(const Writing *call) {
    return call->display ? "referee_display" : "referee_sheet";
}

/* Whether a call answers what it is to, with the sheet at the front of the lent bytes and the others kept. Where the mode is not the right one it is to answer -101 and keep every byte. */
static bool sheet_is(const Writing *call, bool right) {
    static const float none[1];
    static uint8_t lent[ROOM];
    for (size_t i = 0; i < ROOM; i++)
        lent[i] = filler(i);
    long long n = (call->display ? referee_display : referee_sheet)(call->words, call->length, none, 0, none, 0, lent, call->room);
    size_t front = right ? strlen(call->sheet) : 0;
    if (n != (right ? call->answer : -101))
        return wrong(entry_of(call), call->name, n, "");
    if (memcmp(lent, call->sheet, front) != 0)
        return wrong(entry_of(call), call->name, n, ", another sheet");
    for (size_t i = front; i < ROOM; i++)
        if (lent[i] != filler(i))
            return wrong(entry_of(call), call->name, n, ", a byte written that is to be kept");
    return true;
}

/* The same of the candidates from -5 between -6.75 and -0.25 by steps of 1, which document 01 has: -5, -6, -4, -3, -2, -1. */
static bool candidates_are(size_t length, long long want) {
    static const uint32_t places[6] = {0xc0a00000, 0xc0c00000, 0xc0800000, 0xc0400000, 0xc0000000, 0xbf800000};
    static uint32_t lent[REFEREE_CANDIDATES];
    static float list[REFEREE_CANDIDATES];
    char name[32];
    snprintf(name, sizeof name, "%d lent", (int)length);
    for (size_t i = 0; i < REFEREE_CANDIDATES; i++)
        lent[i] = 0x40000000u | (uint32_t)i;
    memcpy(list, lent, sizeof list);
    long long n = referee_candidates(-5.0f, -6.75f, -0.25f, 1.0f, list, length);
    if (n != want)
        return wrong("referee_candidates", name, n, "");
    for (long long i = 0; i < want; i++)
        lent[i] = places[i];
    if (memcmp(list, lent, sizeof list) != 0)
        return wrong("referee_candidates", name, n, ", another list");
    return true;
}

/* The same of a call of referee_coach. */
static bool coach_is(const Coach *call, bool right) {
    static const float none[1];
    static uint8_t lent[REFEREE_COACH_BYTES + 26];
    for (size_t i = 0; i < sizeof lent; i++)
        lent[i] = filler(i);
    long long n = referee_coach(call->words, call->length, none, 0, none, 0, call->side, call->number, lent, call->room);
    size_t front = right ? strlen(call->line) : 0;
    if (n != (right ? call->answer : -101))
        return wrong("referee_coach", call->name, n, "");
    if (memcmp(lent, call->line, front) != 0)
        return wrong("referee_coach", call->name, n, ", another line");
    for (size_t i = front; i < sizeof lent; i++)
        if (lent[i] != filler(i))
            return wrong("referee_coach", call->name, n, ", a byte written that is to be kept");
    return true;
}

/* The same of a call of referee_place. The filler is no word of an answer: patterns of NaNs. */
static bool place_is(const Placing *call, bool right) {
    static const float none[1];
    uint32_t lent[PLACE_ROOM], want[PLACE_ROOM];
    for (size_t i = 0; i < PLACE_ROOM; i++)
        lent[i] = want[i] = 0xffc00000u | (uint32_t)i;
    if (right && call->answer == 1)
        memcpy(want, call->place, sizeof call->place);
    long long n = referee_place(call->words, call->length, none, 0, none, 0, lent, call->room);
    if (n != (right ? call->answer : -101))
        return wrong("referee_place", call->name, n, "");
    if (memcmp(lent, want, sizeof lent) != 0)
        return wrong("referee_place", call->name, n, ", other words");
    return true;
}

/* The same of a call of referee_read_sheet, in any mode. */
static bool reading_is(const Reading *call) {
    size_t length = call->length > 0 ? call->length : strlen(call->text);
    long long n = referee_read_sheet((const uint8_t *)call->text, length);
    return n == call->answer ? true : wrong("referee_read_sheet", call->name, n, "");
}

/* The same of a call of referee_read_item, in any mode. */
static bool item_is(const Asking *call) {
    uint32_t lent[ITEM_ROOM], want[ITEM_ROOM];
    for (size_t i = 0; i < ITEM_ROOM; i++)
        lent[i] = want[i] = 0xffc00000u | (uint32_t)i;
    if (call->answer == 1)
        memcpy(want, call->item, sizeof call->item);
    long long n = referee_read_item((const uint8_t *)call->text, strlen(call->text), call->line, lent, call->room);
    if (n != call->answer)
        return wrong("referee_read_item", call->name, n, "");
    if (memcmp(lent, want, sizeof lent) != 0)
        return wrong("referee_read_item", call->name, n, ", other words");
    return true;
}

static bool check_is(const char *name, const uint32_t *words, size_t length, long long want) {
    long long n = referee_check(words, length);
    return n == want ? true : wrong("referee_check", name, n, "");
}

/* Everything in the mode that is set. In a wrong one -101 comes before what else there is to tell, and all that is lent is kept; referee_check, referee_read_sheet and referee_read_item
 * compute with no floats. */
static void in_mode(const char *name, bool right) {
    bool ok = true;
    for (size_t i = 0; i < WRITINGS; i++)
        ok &= sheet_is(&writings[i], right);
    for (size_t i = 0; i < COACHES; i++)
        ok &= coach_is(&coaches[i], right);
    for (size_t i = 0; i < PLACINGS; i++)
        ok &= place_is(&placings[i], right);
    ok &= candidates_are(REFEREE_CANDIDATES, right ? 6 : -101);
    ok &= candidates_are(7, right ? 6 : -101);
    ok &= candidates_are(5, right ? -6 : -101);
    ok &= candidates_are(0, right ? -6 : -101);
    ok &= check_is("case A", cases[0].words, REFEREE_WORDS, 0);
    for (size_t i = 0; i < READINGS; i++)
        ok &= reading_is(&readings[i]);
    for (size_t i = 0; i < ASKINGS; i++)
        ok &= item_is(&askings[i]);
    tell(name, ok);
}

static void modes(void) {
    static const int directions[4] = {FE_TONEAREST, FE_UPWARD, FE_DOWNWARD, FE_TOWARDZERO};
    static const char *const names[4] = {"to nearest", "upward", "downward", "toward zero"};
    char name[100];
    in_mode("float mode: as the program starts", true);
    for (int i = 0; i < 4; i++) {
        if (fesetround(directions[i]) != 0)
            stop("fesetround");
        snprintf(name, sizeof name, "float mode: fesetround, %s", names[i]);
        in_mode(name, i == 0);
        fesetround(FE_TONEAREST);
    }
    for (unsigned rounding = 0; rounding < 4; rounding++)
        for (unsigned flush = 0; flush < 4; flush++) {
            static const char *const roundings[4] = {"to nearest", "downward", "upward", "toward zero"};
            static const char *const bits[4] = {"", ", flush-to-zero", ", denormals-are-zero", ", flush-to-zero, denormals-are-zero"};
            snprintf(name, sizeof name, "float mode: MXCSR, %s%s", roundings[rounding], bits[flush]);
            _mm_setcsr(DEFAULT | rounding << ROUNDING | (flush & 1 ? FTZ : 0) | (flush & 2 ? DAZ : 0));
            in_mode(name, rounding == 0 && flush == 0);
        }
    _mm_setcsr(DEFAULT);
    in_mode("float mode: the default again", true);
}

static void fast_math(void) {
    unsigned mode = _mm_getcsr();
    if ((mode & (FTZ | DAZ)) == 0) {
        snprintf(seen, sizeof seen, "MXCSR is %04x", mode);
        tell("-ffast-math: the program starts with another mode", false);
    } else
        tell("-ffast-math: the program starts with another mode", true);
    in_mode("-ffast-math: as the program starts", false);
    _mm_setcsr(DEFAULT);
    in_mode("-ffast-math: the default again", true);
}

/* referee_check at the first and the last word that has a column, at two words outside, and at other lengths. */
static void check_words(void) {
    uint32_t words[REFEREE_WORDS + 1] = {0};
    const uint32_t *a = cases[0].words;
    memcpy(words, a, sizeof cases[0].words);
    tell("referee_check: 0 at case A", check_is("case A", words, REFEREE_WORDS, 0));
    words[REFEREE_W_SIDES] = 2;
    tell("referee_check: 16 where the sides are 2", check_is("sides 2", words, REFEREE_WORDS, 16));
    words[REFEREE_W_STATE] = 6;
    tell("referee_check: the first of two", check_is("sides 2, state 6", words, REFEREE_WORDS, 16));
    words[REFEREE_W_SIDES] = 1;
    tell("referee_check: the other of two", check_is("state 6", words, REFEREE_WORDS, 19));
    words[REFEREE_W_STATE] = a[REFEREE_W_STATE];
    words[REFEREE_W_WISHED_PLAYER] = 255;
    tell("referee_check: 0 at the last word's greatest value", check_is("wished player 255", words, REFEREE_WORDS, 0));
    words[REFEREE_W_WISHED_PLAYER] = 256;
    tell("referee_check: 563 past it", check_is("wished player 256", words, REFEREE_WORDS, 563));
    tell("referee_check: -100 a word too few", check_is("562 words", words, REFEREE_WORDS - 1, -100));
    words[REFEREE_W_WISHED_PLAYER] = 0;
    tell("referee_check: -100 a word too many", check_is("564 words", words, REFEREE_WORDS + 1, -100));
    tell("referee_check: -100 without words", check_is("no words", words, 0, -100));
}

static void sheet_calls(void) {
    char name[100];
    for (size_t i = 0; i < WRITINGS; i++) {
        snprintf(name, sizeof name, "%s: %s", entry_of(&writings[i]), writings[i].name);
        tell(name, sheet_is(&writings[i], true));
    }
}

static void coach_calls(void) {
    char name[100];
    for (size_t i = 0; i < COACHES; i++) {
        snprintf(name, sizeof name, "referee_coach: %s", coaches[i].name);
        tell(name, coach_is(&coaches[i], true));
    }
}

static void place_calls(void) {
    char name[100];
    for (size_t i = 0; i < PLACINGS; i++) {
        snprintf(name, sizeof name, "referee_place: %s", placings[i].name);
        tell(name, place_is(&placings[i], true));
    }
}

static void read_calls(void) {
    char name[100];
    for (size_t i = 0; i < READINGS; i++) {
        snprintf(name, sizeof name, "referee_read_sheet: %s", readings[i].name);
        tell(name, reading_is(&readings[i]));
    }
    for (size_t i = 0; i < ASKINGS; i++) {
        snprintf(name, sizeof name, "referee_read_item: %s", askings[i].name);
        tell(name, item_is(&askings[i]));
    }
}

static void put_pose(uint32_t *words, uint32_t side, uint32_t number, uint32_t x, uint32_t y) {
    uint32_t pose[REFEREE_POSE_WORDS] = {1, x, y, 0, 0x3e800000}; /* of radius 0.25 */
    memcpy(words + REFEREE_W_POSES + REFEREE_POSE_WORDS * (20 * side + number - 1), pose, sizeof pose);
}

static void make_coach_words(void) {
    memcpy(in_set, cases[0].words, sizeof in_set);
    in_set[REFEREE_W_STATE] = REFEREE_STATE_SET;
    in_set[REFEREE_W_SET_PLAY] = REFEREE_SET_PLAY_KICK_OFF;
    in_set[REFEREE_W_KICKING_SIDE] = REFEREE_SIDE_HOME;
    put_pose(in_set, REFEREE_SIDE_HOME, 2, 0, 0x3e800000); /* (0, 0.25) */
    put_pose(in_set, REFEREE_SIDE_HOME, 6, 0, 0x3e800000);
    put_pose(in_set, REFEREE_SIDE_HOME, 20, 0, 0x3e800000);
    put_pose(in_set, REFEREE_SIDE_AWAY, 2, 0x40800000, 0); /* (4, 0) */
    in_set[REFEREE_W_PENALTIES + 5] = REFEREE_PENALTY_PUSHING;
    memcpy(in_playing, in_set, sizeof in_set);
    in_playing[REFEREE_W_STATE] = REFEREE_STATE_PLAYING;
    memcpy(with_distance, in_set, sizeof in_set);
    with_distance[REFEREE_W_PENALTY_PLACEMENT_DISTANCE] = 0x3c23d70a; /* 0.01 */
    memcpy(with_ball, in_set, sizeof in_set);
    with_ball[REFEREE_W_BALL + 2] = 0x7fc00000; /* NaN */
}

static void put_ball(uint32_t *words, uint32_t x, uint32_t y, uint32_t z) {
    uint32_t ball[3] = {x, y, z};
    memcpy(words + REFEREE_W_BALL, ball, sizeof ball);
}

static void make_sheet_words(void) {
    memcpy(twelve, cases[0].words, sizeof twelve);
    twelve[REFEREE_W_SET_PLAY] = REFEREE_SET_PLAY_KICK_OFF;
    put_ball(twelve, 0, 0, 0);
    for (uint32_t number = 1; number <= 6; number++) {
        put_pose(twelve, REFEREE_SIDE_HOME, number, 0, 0);
        put_pose(twelve, REFEREE_SIDE_AWAY, number, 0, 0);
    }
    memcpy(thirteen, twelve, sizeof thirteen);
    put_pose(thirteen, REFEREE_SIDE_AWAY, 7, 0, 0);
    memcpy(thirteen_and_distance, thirteen, sizeof thirteen);
    thirteen_and_distance[REFEREE_W_PENALTY_PLACEMENT_DISTANCE] = 0x3c23d70a; /* 0.01 */
    memcpy(thirteen_and_sides, thirteen, sizeof thirteen);
    thirteen_and_sides[REFEREE_W_SIDES] = 2;
}

static void make_place_words(void) {
    memcpy(free_kick, cases[0].words, sizeof free_kick);
    free_kick[REFEREE_W_SET_PLAY] = REFEREE_SET_PLAY_DIRECT_FREE_KICK;
    free_kick[REFEREE_W_WISH] = REFEREE_WISH_BALL_AT_RESTART;
    put_ball(free_kick, 0, 0, 0);
    memcpy(turned, free_kick, sizeof turned);
    turned[REFEREE_W_SIDES] = REFEREE_SIDE_MAPPING_HOME_DEFENDS_RIGHT_GOAL;
    put_ball(turned, 0x80000000, 0x80000000, 0);
    memcpy(refused_kick, free_kick, sizeof refused_kick);
    put_ball(refused_kick, 0, 0, 0x7fc00000); /* NaN */

    memcpy(penalty, cases[0].words, sizeof penalty);
    memset(penalty + REFEREE_W_POSES, 0, 200 * sizeof(uint32_t));
    put_pose(penalty, REFEREE_SIDE_HOME, 2, 0, 0x80000000);
    penalty[REFEREE_W_WISH] = REFEREE_WISH_FOR_PENALTY;
    penalty[REFEREE_W_WISHED_SIDE] = REFEREE_SIDE_HOME;
    penalty[REFEREE_W_WISHED_PLAYER] = 2;

    memcpy(keeper, cases[0].words, sizeof keeper);
    put_pose(keeper, REFEREE_SIDE_AWAY, 1, 0xc0c00000, 0x3f000000); /* (-6, 0.5) */
    keeper[REFEREE_W_POSES + REFEREE_POSE_WORDS * 20 + 3] = 0x80000000;
    keeper[REFEREE_W_GOALKEEPERS + 1] = 1;
    keeper[REFEREE_W_WISH] = REFEREE_WISH_GOALKEEPER;
    keeper[REFEREE_W_WISHED_SIDE] = REFEREE_SIDE_AWAY;
}

static void read_cases(const char *case_a, const char *sheet) {
    FILE *file = fopen(case_a, "r");
    for (int i = 0; i < REFEREE_WORDS; i++)
        if (file == NULL || fscanf(file, "%u", &cases[0].words[i]) != 1)
            stop("case A cannot be read");
    fclose(file);
    file = fopen(sheet, "r");
    if (file == NULL || fread(cases[0].sheet, 1, sizeof cases[0].sheet - 1, file) != 135)
        stop("the sheet of case A cannot be read");
    fclose(file);

    /* A with the ball past a touchline where x is the least subnormal number, 2^-149. Document 01: the side whose half holds the ball takes only x = 0 as not positive, so
     * the throw-in is Home's. With subnormal operands as zeros it is Away's. */
    cases[1] = cases[0];
    cases[1].words[REFEREE_W_BALL] = 1;
    cases[1].words[REFEREE_W_BALL + 1] = 0x40980000; /* 4.75 */
    memcpy(cases[1].sheet + 90, "          6          0          4          0\n", 45);

    /* Home's penalty kick on A's field; Away 2 at x = -3.70000005, y = 2 with radius 0.300000012 touches the line of its penalty area, x = -4. To nearest, -4 and the radius
     * make -3.70000005, so that the margin is 0 and it stands legally, as the original Rust answers; upward they make -3.6999998, and it would be inside, which is illegal. */
    cases[2] = cases[0];
    memset(cases[2].words + REFEREE_W_POSES, 0, 200 * sizeof(uint32_t));
    memset(cases[2].words + REFEREE_W_BALL, 0, 3 * sizeof(uint32_t));
    cases[2].words[REFEREE_W_STATE] = REFEREE_STATE_SET;
    cases[2].words[REFEREE_W_SET_PLAY] = REFEREE_SET_PLAY_PENALTY_KICK;
    cases[2].words[REFEREE_W_KICKING_SIDE] = REFEREE_SIDE_HOME;
    static const uint32_t pose[REFEREE_POSE_WORDS] = {1, 0xc06ccccd, 0x40000000, 0, 0x3e99999a};
    memcpy(cases[2].words + REFEREE_W_POSES + REFEREE_POSE_WORDS * 21, pose, sizeof pose);
    memset(cases[2].sheet, 0, sizeof cases[2].sheet);
    memcpy(cases[2].sheet, "          0          2          0          1\n", 45);
}

int main(int count, char **arguments) {
    if (count != 4)
        stop("usage: entries CASE_A SHEET default|flushing");
    read_cases(arguments[1], arguments[2]);
    make_coach_words();
    make_sheet_words();
    make_place_words();
    if (strcmp(arguments[3], "flushing") == 0)
        fast_math();
    else {
        modes();
        sheet_calls();
        coach_calls();
        place_calls();
        read_calls();
        check_words();
    }
    puts("end");
    return 0;
}
