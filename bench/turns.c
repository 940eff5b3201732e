/* Measures how the work of spoonglacier_run grows: the time of a point with the number of points, of a stem
   with that of stems, of a mask with that of masks. Scripts are written by spoonglacier_write. A time is the
   least of several rounds, less that of the same script without what is counted, and is given as a ratio to
   a middle size. The longest script has 65,536 bytes, so there are at most some 6,900 points. */
#include <stdint.h>
#include <stdio.h>
#include <stdlib.h>
#include <time.h>

#include "spoonglacier.h"

enum { one = SPOONGLACIER_ONE, most_words = 16384, most_masks = 4096, rounds = 25, cannot = 3 };
enum kind { points, stems, masks, kinds };
/* How many sizes of each there are, and which of them the others are held against. */
enum { sizes = 5, middle = 2 };

static const struct {
    const char *name;
    size_t sizes[sizes];
} shapes[kinds] = {
    {"points", {9, 99, 999, 3999, 6900}},
    {"stems", {4, 8, 24, 48, 96}},
    {"masks", {1, 10, 100, 500, 1000}},
};

static int32_t commands[most_words], out[SPOONGLACIER_ROOM(most_words)];
static uint8_t mask_bytes[most_masks], script[SPOONGLACIER_MOST_SCRIPT_BYTES];
static size_t words, bytes, length;

static void stop(const char *why) {
    fprintf(stderr, "turns: %s\n", why);
    exit(cannot);
}

static void put(int32_t word) {
    if (words == most_words)
        stop("a script is too long");
    commands[words++] = word;
}

/* A height that is not in order, from 0 to 700. */
static int32_t height(size_t i) { return (int32_t)(i * 37 % 701) * one; }

static void put_point(size_t i) {
    put((int32_t)(i % 500) * one);
    put(height(i));
}

static void put_stems(size_t count) {
    for (size_t i = 0; i < count; i++) {
        put(SPOONGLACIER_STEM);
        put((int32_t)(7 * i) * one);
        put((int32_t)(7 * i + 3) * one);
    }
}

/* The script of so many; none of them for what is taken off. */
static void make(enum kind kind, size_t count) {
    spoonglacier_params params = {.blue_scale = 2597, .blue_shift = 7 * one, .blue_fuzz = one};
    size_t place;
    words = bytes = 0;
    put_stems(kind == stems ? count : 12);
    put(SPOONGLACIER_MOVE);
    put_point(0);
    for (size_t i = 0; kind == points && i < count; i += 3) {
        put(SPOONGLACIER_CURVE);
        for (size_t k = 0; k < 3; k++)
            put_point(i + k);
    }
    for (size_t i = 0; kind == masks && i < count; i++) {
        put(SPOONGLACIER_HINT_MASK);
        put(2);
        mask_bytes[bytes++] = i % 2 ? 0xcc : 0x33;
        mask_bytes[bytes++] = 0xf0;
        put(SPOONGLACIER_LINE);
        put_point(i);
    }
    put(SPOONGLACIER_FINISH);
    if (spoonglacier_write(one / 24, (const int32_t *)&params, SPOONGLACIER_PARAMS_WORDS, commands, words, mask_bytes,
                           bytes, script, sizeof script, &length, &place) != SPOONGLACIER_OK)
        stop("a script is not written");
}

/* The least time of a run, in nanoseconds. */
static double least(void) {
    double best = 1e300;
    size_t turns = 1 + 200000 / length, place;
    for (int round = 0; round < rounds; round++) {
        struct timespec from, to;
        clock_gettime(CLOCK_MONOTONIC, &from);
        for (size_t turn = 0; turn < turns; turn++)
            if (spoonglacier_run(script, length, out, sizeof out / sizeof *out, &place) != SPOONGLACIER_OK)
                stop("a script is not run");
        clock_gettime(CLOCK_MONOTONIC, &to);
        double time = ((to.tv_sec - from.tv_sec) * 1e9 + (double)(to.tv_nsec - from.tv_nsec)) / (double)turns;
        best = time < best ? time : best;
    }
    return best;
}

int main(void) {
    for (int kind = 0; kind < kinds; kind++) {
        double unit[sizes], without;
        make(kind, 0);
        without = least();
        for (int i = 0; i < sizes; i++) {
            make(kind, shapes[kind].sizes[i]);
            unit[i] = (least() - without) / (double)shapes[kind].sizes[i];
        }
        for (int i = 0; i < sizes; i++)
            printf("%-7s %6zu  %8.1f ns each, %5.2f of that at %zu\n", shapes[kind].name, shapes[kind].sizes[i],
                   unit[i], unit[i] / unit[middle], shapes[kind].sizes[middle]);
    }
    return 0;
}
