/* Label runs whose result has the most words that there can be, or one more (G9): 2^31 - 1, so that every
   offset is a word. The commands, some 2^31 of them, are finishes alone, and each of those writes one record, so
   that few pages serve for all: a piece of memory lies at many places, of the commands and of the output but for its
   start and its end. Prints the answer to each run, and whether it is right. */
#define _GNU_SOURCE
#include <stdint.h>
#include <stdio.h>
#include <string.h>
#include <sys/mman.h>
#include <unistd.h>

#include "spoonglacier.h"

#define MOST_WORDS 2147483647u
#define LENT 0x5a5a5a5a
enum { header = 6, finish_record = 5, piece_words = 1 << 20, pieces = 2049, behind = 4 };

/* Pieces of memory, all words of which are one. The first and the last two are by themselves if they are to be
   `apart`, and all others are one piece that lies at many places. */
static int32_t *filled(int32_t word, int apart) {
    size_t bytes = 4 * (size_t)piece_words;
    int file = memfd_create("piece", 0);
    char *start = mmap(NULL, pieces * bytes, PROT_NONE, MAP_PRIVATE | MAP_ANONYMOUS | MAP_NORESERVE, -1, 0);
    if (file < 0 || ftruncate(file, (off_t)bytes) || start == MAP_FAILED)
        return NULL;
    for (size_t i = 0; i < pieces; i++) {
        int own = apart && (i == 0 || i >= pieces - 2);
        int flags = MAP_FIXED | (own ? MAP_PRIVATE | MAP_ANONYMOUS : MAP_SHARED);
        int32_t *at = mmap(start + i * bytes, bytes, PROT_READ | PROT_WRITE, flags, own ? -1 : file, 0);
        if (at == MAP_FAILED)
            return NULL;
        for (size_t j = 0; (own || i <= 1) && j < piece_words; j++)
            at[j] = word;
    }
    close(file);
    return (int32_t *)start;
}

static int wrong;

/* Two glyphs of so many finishes each, into an output of more words than count. */
static void run(const int32_t *commands, size_t first, size_t second, uint32_t number, size_t at) {
    int32_t *out = filled(LENT, 1);
    if (out == NULL) {
        perror("longest");
        wrong = 1;
        return;
    }
    spoonglacier_params params = {.blue_scale = 2597};
    int32_t lengths[] = {(int32_t)first, 0, (int32_t)second, 0};
    size_t room = (size_t)MOST_WORDS + behind, written = 0, glyph = 0, place = 0;
    uint32_t answer = spoonglacier_labels(SPOONGLACIER_ONE, (const int32_t *)&params, SPOONGLACIER_PARAMS_WORDS,
                                          commands, first + second, NULL, 0, lengths, 4, out, room, &written, &glyph,
                                          &place);
    int32_t start[header + 1] = {1, 2, header, (int32_t)first, (int32_t)(header + first), (int32_t)second,
                                 finish_record};
    size_t words = header + first + second;
    if (answer != SPOONGLACIER_OK) {
        words = 0;
        for (size_t i = 0; i <= header; i++)
            start[i] = LENT;
    }
    int right = answer == number && glyph == at && place == 0 && written == words && !memcmp(out, start, sizeof start);
    /* the last words: what ends the result, and what stands as it was lent */
    for (size_t i = room - 2 * behind; i < room; i++)
        right &= out[i] == (i < words ? finish_record : LENT);
    printf("%zu and %zu finishes: %u at glyph %zu, place %zu: %zu words, %s\n", first, second, (unsigned)answer, glyph,
           place, written, right ? "right" : "wrong");
    wrong |= !right;
    munmap(out, 4 * (size_t)piece_words * pieces);
}

int main(void) {
    const int32_t *commands = filled(SPOONGLACIER_FINISH, 0);
    if (commands == NULL) {
        perror("longest");
        return 3;
    }
    run(commands, MOST_WORDS - header + 1, 0, SPOONGLACIER_NO_ROOM, 1);
    run(commands, MOST_WORDS - header, 1, SPOONGLACIER_NO_ROOM, 2);
    run(commands, MOST_WORDS - header, 0, SPOONGLACIER_OK, 0);
    run(commands, MOST_WORDS - header - 1, 1, SPOONGLACIER_OK, 0);
    return wrong;
}
