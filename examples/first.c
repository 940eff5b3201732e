/* Hints a first script through the static library and prints its answer: number and place, then the
   words of the result. The script is that of stem.bin; docs/SCRIPT.md explains its words. */
#include <stdint.h>
#include <stdio.h>

#include "spoonglacier.h"

enum { one = SPOONGLACIER_ONE, word_count = 32, command_count = 6, room = SPOONGLACIER_ROOM(command_count) };

static const int32_t words[word_count] = {
    /* Header: version, scale 1/32, 8 parameter words at 8, 16 command words at 16, no masks. */
    SPOONGLACIER_SCRIPT_VERSION, 2048, 8, 8, 16, 16, 32, 0,
    /* Parameters: blue scale, shift, fuzz, language group, and four lists without pairs. */
    2597, 7 * one, 1 * one, 0, 0, 0, 0, 0,
    /* Commands: a stem from 16 to 80, and a path along both its edges. */
    SPOONGLACIER_STEM, 16 * one, 80 * one,
    SPOONGLACIER_MOVE, 0, 16 * one,
    SPOONGLACIER_LINE, 100 * one, 16 * one,
    SPOONGLACIER_LINE, 100 * one, 80 * one,
    SPOONGLACIER_LINE, 0, 80 * one,
    SPOONGLACIER_FINISH,
};

int main(void) {
    uint8_t script[4 * word_count];
    int32_t out[room] = {0};
    size_t place = 0;
    for (int i = 0; i < word_count; i++)
        for (int k = 0; k < 4; k++)
            script[4 * i + k] = (uint8_t)((uint32_t)words[i] >> (8 * k));
    uint32_t answer = spoonglacier_run(script, sizeof script, out, room, &place);
    printf("%u at %zu:", (unsigned)answer, place);
    if (answer == SPOONGLACIER_OK)
        for (int32_t i = 0; i < SPOONGLACIER_RESULT_HEADER_WORDS + out[3]; i++)
            printf(" %d", (int)out[i]);
    printf("\n");
    return answer == SPOONGLACIER_OK ? 0 : 1;
}
