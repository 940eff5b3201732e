/* Writes a script through the static library, runs it, and prints the answer as first.c does. The
   glyph is that of stem.txt with a mask that selects its stem: docs/SCRIPT.md explains the words. */
#include <stdint.h>
#include <stdio.h>

#include "spoonglacier.h"

enum { one = SPOONGLACIER_ONE, word_count = 18, command_count = 7, room = SPOONGLACIER_ROOM(command_count) };

static const int32_t commands[word_count] = {
    SPOONGLACIER_STEM, 16 * one, 80 * one,
    SPOONGLACIER_HINT_MASK, 1, /* one mask byte, taken from `masks` in turn */
    SPOONGLACIER_MOVE, 0, 16 * one,
    SPOONGLACIER_LINE, 100 * one, 16 * one,
    SPOONGLACIER_LINE, 100 * one, 80 * one,
    SPOONGLACIER_LINE, 0, 80 * one,
    SPOONGLACIER_FINISH,
};
static const uint8_t masks[] = {0x80}; /* the first stem */

int main(void) {
    spoonglacier_params params = {.blue_scale = 2597, .blue_shift = 7 * one, .blue_fuzz = 1 * one};
    uint8_t script[SPOONGLACIER_SCRIPT_ROOM_FOR(word_count, sizeof masks)];
    int32_t out[room] = {0};
    size_t written = 0, place = 0;
    uint32_t answer = spoonglacier_write(one / 32, (const int32_t *)&params, SPOONGLACIER_PARAMS_WORDS, commands,
                                         word_count, masks, sizeof masks, script, sizeof script, &written, &place);
    if (answer == SPOONGLACIER_OK)
        answer = spoonglacier_run(script, written, out, room, &place);
    printf("%u at %zu:", (unsigned)answer, place);
    if (answer == SPOONGLACIER_OK)
        for (int32_t i = 0; i < SPOONGLACIER_RESULT_HEADER_WORDS + out[3]; i++)
            printf(" %d", (int)out[i]);
    printf("\n");
    return answer == SPOONGLACIER_OK ? 0 : 1;
}
