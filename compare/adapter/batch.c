/* Speaks the batch protocol for the static library. Guard words stand after the output, and a copy
   of the script is kept, so that a write outside the lent words is seen. */
#include <stdint.h>
#include <stdio.h>
#include <stdlib.h>
#include <string.h>

#include "spoonglacier.h"

enum { guards = 16 };

static uint32_t lent_word(uint32_t fill, uint32_t place) {
    return fill + place * UINT32_C(0x9E3779B1);
}

static void stop(const char *why) {
    fprintf(stderr, "batch: %s\n", why);
    exit(1);
}

int main(void) {
    uint32_t header[3];
    while (fread(header, 4, 3, stdin) == 3) {
        uint32_t length = header[0], room = header[1], fill = header[2];
        uint8_t *script = malloc(length + 1), *copy = malloc(length + 1);
        uint32_t *out = malloc(4 * ((size_t)room + guards));
        if (!script || !copy || !out)
            stop("no memory");
        if (fread(script, 1, length, stdin) != length)
            stop("the script is cut off");
        memcpy(copy, script, length);
        for (uint32_t place = 0; place < room + guards; place++)
            out[place] = lent_word(fill, place);
        size_t at = SIZE_MAX;
        uint32_t answer[2];
        answer[0] = spoonglacier_run(script, length, (int32_t *)out, room, &at);
        answer[1] = (uint32_t)at;
        for (uint32_t place = room; place < room + guards; place++)
            if (out[place] != lent_word(fill, place))
                stop("a word past the lent output was written");
        if (memcmp(copy, script, length) != 0)
            stop("the script was written to");
        if (fwrite(answer, 4, 2, stdout) != 2 || fwrite(out, 4, room, stdout) != room)
            stop("the answer cannot be written");
        free(script);
        free(copy);
        free(out);
    }
    return 0;
}
