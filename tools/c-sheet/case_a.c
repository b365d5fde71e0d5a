/* Prints the sheet of document 01's case A by way of the C entry. README.md beside this file has the commands. */
#include <stdio.h>
#include <string.h>

#include "referee.h"

static uint32_t bits(float x) {
    uint32_t pattern;
    memcpy(&pattern, &x, sizeof pattern);
    return pattern;
}

/* Puts a player of Home with radius 0.25 and heading 0 at (x, y). */
static void present(uint32_t *words, int number, float x, float y) {
    uint32_t *pose = words + REFEREE_W_POSES + REFEREE_POSE_WORDS * (number - 1);
    pose[0] = 1;
    pose[1] = bits(x);
    pose[2] = bits(y);
    pose[3] = bits(0);
    pose[4] = bits(0.25f);
}

int main(void) {
    static const float sizes[14] = {14, 9, 2.5f, 1.75f, 1, 4, 3, 6, 2, 1.5f, 1, 0.0625f, 0.0625f, 0.125f};
    uint32_t words[REFEREE_WORDS] = {0};
    for (int i = 0; i < 14; i++)
        words[REFEREE_W_FIELD_LENGTH + i] = bits(sizes[i]);
    words[REFEREE_W_PENALTY_PLACEMENT_DISTANCE] = bits(1);
    words[REFEREE_W_STATE] = REFEREE_STATE_PLAYING;
    words[REFEREE_W_KICKING_SIDE] = REFEREE_NO_SIDE;
    words[REFEREE_W_GOALKEEPERS] = REFEREE_NO_NUMBER;
    words[REFEREE_W_GOALKEEPERS + 1] = REFEREE_NO_NUMBER;
    present(words, 2, 6.5f, 0);
    present(words, 3, 6.5f, 1);
    present(words, 4, 6.25f, -1);
    present(words, 5, 6.75f, 0.5f);
    for (int number = 2; number <= 4; number++)
        words[REFEREE_W_PREVIOUSLY_INSIDE + number - 1] = 1;
    words[REFEREE_W_BALL] = bits(7.25f);
    words[REFEREE_W_BALL + 1] = bits(1);
    words[REFEREE_W_BALL + 2] = bits(0.125f);
    words[REFEREE_W_LAST_CONTACT] = REFEREE_NO_SIDE;

    static const float none[1];
    uint8_t sheet[REFEREE_SHEET_BYTES];
    int64_t n = referee_sheet(words, REFEREE_WORDS, none, 0, none, 0, sheet, sizeof sheet);
    if (n < 0) { /* a refusal, REFEREE_MALFORMED or REFEREE_OTHER_FLOAT_MODE */
        fprintf(stderr, "no sheet: %d\n", (int)n);
        return 1;
    }
    fwrite(sheet, 1, (size_t)n, stdout);
    return 0;
}
