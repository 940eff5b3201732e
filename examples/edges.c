/* Lists the edges of a script's map through the static library: those of the script in stem.bin,
   whose bytes are the program's standard input. docs/HINTING.md says what edges are. */
#include <stdint.h>
#include <stdio.h>

#include "spoonglacier.h"

int main(void) {
    uint8_t script[SPOONGLACIER_MOST_SCRIPT_BYTES];
    int32_t list[SPOONGLACIER_MOST_EDGE_WORDS] = {0};
    size_t edges = 0, pairs = 0, ghosts = 0, locked = 0, place = 0;
    size_t bytes = fread(script, 1, sizeof script, stdin);
    uint32_t answer = spoonglacier_edges(script, bytes, SIZE_MAX, list, SPOONGLACIER_MOST_EDGE_WORDS, &edges, &pairs,
                                         &ghosts, &locked, &place);
    printf("%u at %zu: %zu edges, %zu pairs, %zu ghosts, %zu locked:", (unsigned)answer, place, edges, pairs, ghosts,
           locked);
    for (size_t i = 0; i < edges * SPOONGLACIER_EDGE_WORDS; i++)
        printf(" %d", (int)list[i]);
    printf("\n");
    return answer == SPOONGLACIER_OK ? 0 : 1;
}
