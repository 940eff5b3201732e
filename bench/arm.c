/* Runs each case of a batch so many times, and prints how many there are. Run once more, it takes the instructions of
   the calls, and next to nothing else. */
#include <stdint.h>
#include <stdio.h>
#include <stdlib.h>

#include "spoonglacier.h"

/* Reads one case and runs it; whether there was one. */
static int run_one(long times) {
    uint32_t header[3];
    if (fread(header, 4, 3, stdin) != 3)
        return 0;
    uint32_t length = header[0], room = header[1];
    uint8_t *script = malloc((size_t)length + 1);
    int32_t *out = calloc((size_t)room + 1, 4);
    size_t place = 0;
    if (!script || !out || fread(script, 1, length, stdin) != length)
        exit(1);
    for (long turn = 0; turn < times; turn++)
        if (spoonglacier_run(script, length, out, room, &place) != SPOONGLACIER_OK)
            exit(1);
    free(script);
    free(out);
    return 1;
}

int main(int words, char **word) {
    long times = words == 2 ? atol(word[1]) : 1;
    long scripts = 0;
    while (run_one(times))
        scripts++;
    printf("%ld\n", scripts);
    return 0;
}
