/* Runs the cases of a batch through the static library, scripts or, with a word `labels` behind its name,
   words of labels. It stands before memcpy, memset and memmove, and counts the library's calls and bytes by
   the place of the call. */
#include <stddef.h>
#include <stdint.h>
#include <stdio.h>
#include <stdlib.h>
#include <string.h>

#include "spoonglacier.h"

void *__real_memcpy(void *to, const void *from, size_t bytes);
void *__real_memset(void *to, int byte, size_t bytes);
void *__real_memmove(void *to, const void *from, size_t bytes);

enum { places = 4096 };
static struct { uintptr_t place; uint64_t calls, bytes; } counts[places];
static int counting;

static void count(void *place, size_t bytes) {
    if (!counting)
        return;
    size_t at = (uintptr_t)place % places;
    while (counts[at].calls && counts[at].place != (uintptr_t)place)
        at = (at + 1) % places;
    counts[at].place = (uintptr_t)place;
    counts[at].calls++;
    counts[at].bytes += bytes;
}

void *__wrap_memcpy(void *to, const void *from, size_t bytes) {
    count(__builtin_return_address(0), bytes);
    return __real_memcpy(to, from, bytes);
}

void *__wrap_memset(void *to, int byte, size_t bytes) {
    count(__builtin_return_address(0), bytes);
    return __real_memset(to, byte, bytes);
}

void *__wrap_memmove(void *to, const void *from, size_t bytes) {
    count(__builtin_return_address(0), bytes);
    return __real_memmove(to, from, bytes);
}

/* Reads one case and runs it; whether there was one. */
static int run_one(void) {
    uint32_t header[3];
    if (fread(header, 4, 3, stdin) != 3)
        return 0;
    uint32_t length = header[0], room = header[1];
    uint8_t *script = malloc((size_t)length + 1);
    int32_t *out = calloc((size_t)room + 1, 4);
    size_t place = 0;
    if (!script || !out || fread(script, 1, length, stdin) != length)
        exit(1);
    counting = 1;
    uint32_t answer = spoonglacier_run(script, length, out, room, &place);
    counting = 0;
    free(script);
    free(out);
    if (answer != SPOONGLACIER_OK)
        exit(1);
    return 1;
}

/* So many items of a size from the standard input, and room for one more. */
static void *taken(size_t items, size_t size) {
    void *list = calloc(items + 1, size);
    if (!list || fread(list, size, items, stdin) != items)
        exit(1);
    return list;
}

/* The same of a word, whose case is the lengths of its lists and the words that it is lent, then the lists. */
static int label_one(void) {
    uint32_t header[4];
    if (fread(header, 4, 4, stdin) != 4)
        return 0;
    uint32_t words = header[0], bytes = header[1], lengths = header[2], room = header[3];
    int32_t *given = taken(1 + SPOONGLACIER_PARAMS_WORDS, 4);
    int32_t *commands = taken(words, 4);
    uint8_t *masks = taken(bytes, 1);
    int32_t *each = taken(lengths, 4);
    int32_t *out = calloc((size_t)room + 1, 4);
    size_t written, glyph, place;
    if (!out)
        exit(1);
    counting = 1;
    uint32_t answer = spoonglacier_labels(given[0], given + 1, SPOONGLACIER_PARAMS_WORDS, commands, words, masks, bytes,
                                          each, lengths, out, room, &written, &glyph, &place);
    counting = 0;
    free(given);
    free(commands);
    free(masks);
    free(each);
    free(out);
    if (answer != SPOONGLACIER_OK)
        exit(1);
    return 1;
}

/* A line for each place: its address, calls a case, and bytes a case. */
int main(int words, char **word) {
    int (*one)(void) = words == 2 && strcmp(word[1], "labels") == 0 ? label_one : run_one;
    double cases = 0;
    while (one())
        cases++;
    for (size_t at = 0; at < places; at++)
        if (counts[at].calls)
            printf("%016lx %.2f %.0f\n", (unsigned long)counts[at].place, counts[at].calls / cases,
                   counts[at].bytes / cases);
    return 0;
}
