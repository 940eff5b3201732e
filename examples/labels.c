/* Hints the five letters of a word by one call of the static library, and prints the answer: number,
   glyph and place, and the words of the result; then for each letter where its records start, how
   many words they have, and those words. docs/SCRIPT.md explains the lists. */
#include <stdint.h>
#include <stdio.h>

#include "spoonglacier.h"

enum { one = SPOONGLACIER_ONE, glyph_count = 5, command_count = 57 };
enum { room = SPOONGLACIER_LABEL_ROOM(glyph_count, command_count) };

/* How many words the commands of each letter have. */
enum { t_words = 34, i_words = 19, l_words = 25, e_words = 49 };

/* The foot of a letter without an arm there is a bottom edge alone, at 0, and its head a top edge
   alone, at 208. A mask starts at the letter's own first byte, wherever that stands in `masks`. */
#define FOOT SPOONGLACIER_STEM, 21 * one, 0
#define HEAD SPOONGLACIER_STEM, 208 * one, 188 * one
#define ARM(bottom) SPOONGLACIER_STEM, (bottom) * one, ((bottom) + 32) * one
#define OWN_MASK SPOONGLACIER_HINT_MASK, 0, 1
#define MOVE(x, y) SPOONGLACIER_MOVE, (x) * one, (y) * one
#define LINE(x, y) SPOONGLACIER_LINE, (x) * one, (y) * one

#define LETTER_T \
    FOOT, ARM(176), OWN_MASK, \
    MOVE(64, 0), LINE(96, 0), LINE(96, 176), LINE(160, 176), \
    LINE(160, 208), LINE(0, 208), LINE(0, 176), LINE(64, 176), SPOONGLACIER_FINISH

static const char letters[] = "TITLE";
static const int32_t commands[2 * t_words + i_words + l_words + e_words] = {
    /* T */
    LETTER_T,
    /* I */
    FOOT, HEAD,
    MOVE(0, 0), LINE(32, 0), LINE(32, 208), LINE(0, 208), SPOONGLACIER_FINISH,
    /* T */
    LETTER_T,
    /* L */
    ARM(0), HEAD,
    MOVE(0, 0), LINE(128, 0), LINE(128, 32), LINE(32, 32), LINE(32, 208), LINE(0, 208), SPOONGLACIER_FINISH,
    /* E */
    ARM(0), ARM(72), ARM(176), OWN_MASK,
    MOVE(0, 0), LINE(128, 0), LINE(128, 32), LINE(32, 32), LINE(32, 72), LINE(96, 72),
    LINE(96, 104), LINE(32, 104), LINE(32, 176), LINE(128, 176), LINE(128, 208), LINE(0, 208), SPOONGLACIER_FINISH,
};
static const uint8_t masks[] = {0xC0, 0xC0, 0xE0}; /* T's two stems, T's again, and E's three */
static const int32_t lengths[SPOONGLACIER_GLYPH_LENGTHS * glyph_count] = {
    t_words, 1, i_words, 0, t_words, 1, l_words, 0, e_words, 1,
};

int main(void) {
    spoonglacier_params params = {.blue_scale = 2597, .blue_shift = 7 * one, .blue_fuzz = 1 * one};
    int32_t out[room] = {0};
    size_t written = 0, glyph = 0, place = 0;
    uint32_t answer = spoonglacier_labels(one / 32, (const int32_t *)&params, SPOONGLACIER_PARAMS_WORDS, commands,
                                          sizeof commands / sizeof *commands, masks, sizeof masks, lengths,
                                          sizeof lengths / sizeof *lengths, out, room, &written, &glyph, &place);
    printf("%u at glyph %zu, place %zu: %zu words\n", (unsigned)answer, glyph, place, written);
    if (answer != SPOONGLACIER_OK)
        return 1;
    for (int i = 0; i < out[1]; i++) {
        int32_t offset = out[2 + 2 * i], length = out[3 + 2 * i];
        printf("%c at %d, %d words:", letters[i], (int)offset, (int)length);
        for (int32_t k = 0; k < length; k++)
            printf(" %d", (int)out[offset + k]);
        printf("\n");
    }
    return 0;
}
