/* Spoonglacier: hints the glyph that a script draws, and gives back its path as records; hints the
   glyphs of a label at once; writes scripts; and lists the edges by which a glyph is hinted.

   Link target/staticlib/libspoonglacier.a, which `tools/make spoonglacier` makes: x86-64 code for
   Linux. docs/SCRIPT.md explains every word of a script and of a result, and how to link from C and
   from Rust; examples/first.c is a whole program, examples/write.c writes a script and runs it,
   examples/edges.c lists a script's edges, and examples/labels.c hints a word of five letters. */
#ifndef SPOONGLACIER_H
#define SPOONGLACIER_H

#include <stddef.h>
#include <stdint.h>

#ifdef __cplusplus
extern "C" {
#endif

/* The version. A name that stands in this file keeps its meaning for good, so a program that builds
   with one version builds with every later one. The first number counts changes of the rules, after
   which some scripts have other answers (docs/RULES.md tells which); the second, releases since
   then that add names; the third, all other releases since then. From 1 on a bottom zone looks at
   the first family blue too (rules Z8 and Z10). */
#define SPOONGLACIER_VERSION_MAJOR 1
#define SPOONGLACIER_VERSION_MINOR 1
#define SPOONGLACIER_VERSION_PATCH 0
#define SPOONGLACIER_VERSION "1.1.0"

/* What the functions answer. Places are those of spoonglacier_run and spoonglacier_edges;
   spoonglacier_write and spoonglacier_labels have their own below. */
enum {
    SPOONGLACIER_OK = 0,          /* the result is in the output; place 0 */
    SPOONGLACIER_BAD_SCRIPT = 1,  /* length, header, padding or pairs; place: the word at fault, 0
                                     for a wrong length */
    SPOONGLACIER_BAD_SCALE = 2,   /* a scale below 1; place 1 */
    SPOONGLACIER_BAD_BLUES = 3,   /* a count outside 0 to 7; place: the first such word, 12 to 15 */
    SPOONGLACIER_BAD_COMMAND = 4, /* no such kind, or operands cut off; place: its kind word */
    SPOONGLACIER_BAD_MASK = 5,    /* not within the mask bytes; place: its kind word */
    SPOONGLACIER_NO_ROOM = 6,     /* records do not fit; place: the kind word of their command, or
                                     the value of word 4 if the output has under 4 words */
    SPOONGLACIER_SCRIPT_ROOM = 7, /* spoonglacier_write: the script is longer than the buffer, or
                                     than a script may be; place 0 */
    SPOONGLACIER_LIST_ROOM = 8,   /* spoonglacier_edges: the list has too few records; place 0 */
    SPOONGLACIER_RUN_COUNT = 9    /* spoonglacier_labels: lengths that are not those of 0 to 64
                                     glyphs which fill both lists; place 0 */
};

/* Commands of a script: the kind word, and the operand words behind it. Points are x and y. */
enum {
    SPOONGLACIER_STEM = 1,         /* min max */
    SPOONGLACIER_HINT_MASK = 2,    /* start length, in mask bytes */
    SPOONGLACIER_COUNTER_MASK = 3, /* start length, in mask bytes */
    SPOONGLACIER_CLEAR = 4,        /* none */
    SPOONGLACIER_MOVE = 5,         /* one point */
    SPOONGLACIER_LINE = 6,         /* one point */
    SPOONGLACIER_CURVE = 7,        /* two control points and the end point */
    SPOONGLACIER_CLOSE = 8,        /* none */
    SPOONGLACIER_FINISH = 9        /* none */
};

/* Records of a result: the kind word, and the words behind it. Points are x and y, in pixels. */
enum {
    SPOONGLACIER_RECORD_MOVE = 1,  /* one point */
    SPOONGLACIER_RECORD_LINE = 2,  /* one point */
    SPOONGLACIER_RECORD_CURVE = 3, /* two control points and the end point */
    SPOONGLACIER_RECORD_CLOSE = 4, /* none */
    SPOONGLACIER_RECORD_FINISH = 5 /* none */
};

/* The number 1 in 16.16, the form of scales, heights, widths and points. */
#define SPOONGLACIER_ONE 65536

/* A script: its version, its header's words, the words of parameters before the pairs, and the most
   that it may hold of bytes, of pairs in one list, and of stems that are kept. */
#define SPOONGLACIER_SCRIPT_VERSION 1
#define SPOONGLACIER_HEADER_WORDS 8
#define SPOONGLACIER_PARAMETER_WORDS 8
#define SPOONGLACIER_MOST_SCRIPT_BYTES 65536
#define SPOONGLACIER_MOST_PAIRS 7
#define SPOONGLACIER_MOST_STEMS 96

/* The bytes that a mask with a bit for each stem has. */
#define SPOONGLACIER_MASK_BYTES 12

/* A result: its version, its header's words, and the most record words that one command writes. */
#define SPOONGLACIER_RESULT_VERSION 1
#define SPOONGLACIER_RESULT_HEADER_WORDS 4
#define SPOONGLACIER_MOST_COMMAND_WORDS 10

/* Output words that always suffice for a script of so many commands. */
#define SPOONGLACIER_ROOM(commands) \
    (SPOONGLACIER_RESULT_HEADER_WORDS + SPOONGLACIER_MOST_COMMAND_WORDS * (commands))

/* Bytes of stack that a call takes at most, with a margin; bench/stack measures them. */
#define SPOONGLACIER_STACK_BYTES 65536

/* Runs a script into an output, and answers one of the numbers above.

   script  `script_bytes` bytes that nobody writes to during the call. Any bytes will do.
   out     `out_words` words that nobody else reads or writes during the call. It must not overlap
           the script. On OK it holds the result: 1, the number of records, 4, the number of record
           words, the records; the words behind them stand as they were. On the numbers 1 to 5 no
           word is changed. On NO_ROOM the records of the commands before the one that did not fit
           stand from word 4 on, and every other word is as it was.
   place   where the place is left, which counts words of the script from 0; there may be no word
           there. It must not be null, nor lie in the script or in `out`.

   A length of 0 goes with any pointer to script or out, null included; a longer one needs a pointer
   to as many bytes or words. `out` and `place` must be aligned as their types ask. The function
   keeps no pointer, allocates nothing and has no state of its own, so that several threads may call
   it at once, each with an output and a place of its own. */
uint32_t spoonglacier_run(const uint8_t *script, size_t script_bytes, int32_t *out,
                          size_t out_words, size_t *place);

/* The parameters that a script is written with: 64 words, the first `count` pairs of each list in
   use. Heights, the blue scale, the shift and the fuzz are in 16.16. */
typedef struct {
    int32_t bottom, top;
} spoonglacier_blue;

typedef struct {
    int32_t blue_scale, blue_shift, blue_fuzz, language_group;
    int32_t blues_count, other_blues_count, family_blues_count, family_other_blues_count;
    spoonglacier_blue blues[SPOONGLACIER_MOST_PAIRS];
    spoonglacier_blue other_blues[SPOONGLACIER_MOST_PAIRS];
    spoonglacier_blue family_blues[SPOONGLACIER_MOST_PAIRS];
    spoonglacier_blue family_other_blues[SPOONGLACIER_MOST_PAIRS];
} spoonglacier_params;

/* The words of such a struct, to be handed over as `(const int32_t *)&params`. */
#define SPOONGLACIER_PARAMS_WORDS 64

/* Bytes that always suffice for a script with so many given command words and mask bytes. */
#define SPOONGLACIER_SCRIPT_ROOM_FOR(command_words, mask_bytes) \
    (4 * (SPOONGLACIER_HEADER_WORDS + SPOONGLACIER_PARAMS_WORDS + (command_words)) + \
     2 * (command_words) + ((mask_bytes) + 3) / 4 * 4)

/* Writes the script that says what is given at the start of a buffer, and answers one of the
   numbers above, never BAD_SCRIPT or NO_ROOM.

   scale     the scale in 16.16. Below 1 it is BAD_SCALE, place 1.
   params    `params_words` words, of which the first 64 are read, as in spoonglacier_params. Words
             that are missing count as 0. A count outside 0 to 7 is BAD_BLUES, place 12 to 15, the
             word of a script where the first such count would stand. Pairs past a count are not
             written.
   commands  `command_words` words: kinds with their operands as in a script, but a mask, of either
             kind, is its kind and its length, and no start. BAD_COMMAND is at the kind word's place
             among these words, and so is BAD_MASK for a length that is negative or more than the
             mask bytes that are left.
   masks     `mask_bytes` bytes: those of the masks, one behind the other. Bytes that no mask takes
             are a BAD_MASK at the place `command_words`.
   script    `script_bytes` bytes of any number, which nobody else reads or writes during the call
             and which overlap nothing that is given. On OK the script stands at their start, and
             the bytes behind it are as they were. On every refusal no byte is changed.
   written   where the number of bytes that were written is left; 0 if refused.
   place     where the place is left; 0 on OK.

   Refusals come in this order: the scale, the counts, the commands first to last, bytes left over,
   SCRIPT_ROOM. Neither `written` nor `place` may be null or lie in a buffer, and they are two. A
   length of 0 goes with any pointer, null included; pointers to words must be aligned as their
   types ask. spoonglacier_run never answers the numbers 1 to 5 for what is written, which is
   proved. Stack, threads and state are as for spoonglacier_run. */
uint32_t spoonglacier_write(int32_t scale, const int32_t *params, size_t params_words,
                            const int32_t *commands, size_t command_words, const uint8_t *masks,
                            size_t mask_bytes, uint8_t *script, size_t script_bytes,
                            size_t *written, size_t *place);

/* An edge of a map as a record of six words: its height in units, its height in pixels and the
   scale from it on, all in 16.16; its kind; the number of its stem; and 1 if it is locked, else 0.
   A locked edge was put where it is by a zone, by an earlier map or at the em box, and was not
   fitted to pixels. */
#define SPOONGLACIER_EDGE_WORDS 6
enum {
    SPOONGLACIER_EDGE_HEIGHT = 0,
    SPOONGLACIER_EDGE_DEVICE = 1,
    SPOONGLACIER_EDGE_SCALE = 2,
    SPOONGLACIER_EDGE_KIND = 3,
    SPOONGLACIER_EDGE_STEM = 4,
    SPOONGLACIER_EDGE_LOCKED = 5
};
enum {
    SPOONGLACIER_GHOST_BOTTOM = 0,
    SPOONGLACIER_GHOST_TOP = 1,
    SPOONGLACIER_PAIR_BOTTOM = 2,
    SPOONGLACIER_PAIR_TOP = 3
};

/* The stem number of an edge that is no stem's, at the em box; and the words of a list that has
   room for every map. */
#define SPOONGLACIER_NO_STEM 96
#define SPOONGLACIER_MOST_EDGE_WORDS (SPOONGLACIER_MOST_STEMS * SPOONGLACIER_EDGE_WORDS)

/* Lists the edges of the map that a script has after its first commands, and answers one of the
   numbers above, never NO_ROOM or SCRIPT_ROOM. A glyph's map changes with its masks, so the number
   of commands says which of them is meant.

   script    as for spoonglacier_run.
   commands  how many commands are done, all of them if there are fewer. There is room enough for
             their records, which are not kept.
   list      `list_words` words that nobody else reads or writes during the call and that do not
             overlap the script. On OK it holds the records of the map, the lowest edge first, and
             the words behind them are as they were, a rest of under six among them. A map that is
             not built, as before the first point or after another mask, has no records. LIST_ROOM
             is answered exactly if there are more records than the list has room for; then, and
             on the numbers 1 to 5, no word is changed.
   edges, pairs, ghosts, locked
             where four counts over these records are left: all of them, the pairs, the ghosts with
             those at the em box, and the locked edges; zeros if refused.
   place     where the place is left, as by spoonglacier_run.

   On OK heights never fall, a pair's bottom is directly followed by its own top, and `edges` is
   twice `pairs` and `ghosts`, which is proved. The five pointers may not be null or lie in a
   buffer, and point to five places. Lengths, alignment, threads and state are as for
   spoonglacier_run. */
uint32_t spoonglacier_edges(const uint8_t *script, size_t script_bytes, size_t commands,
                            int32_t *list, size_t list_words, size_t *edges, size_t *pairs,
                            size_t *ghosts, size_t *locked, size_t *place);

/* A label run: the most glyphs, the lengths that each has, and the words of a result before the
   records of so many glyphs. */
#define SPOONGLACIER_MOST_GLYPHS 64
#define SPOONGLACIER_GLYPH_LENGTHS 2
#define SPOONGLACIER_LABEL_HEADER_WORDS(glyphs) (2 + 2 * (glyphs))

/* Output words that always suffice for so many glyphs with so many commands in all. */
#define SPOONGLACIER_LABEL_ROOM(glyphs, commands) \
    (SPOONGLACIER_LABEL_HEADER_WORDS(glyphs) + SPOONGLACIER_MOST_COMMAND_WORDS * (commands))

/* Hints up to 64 glyphs under one scale and one set of parameters, and answers one of the numbers
   above, never BAD_SCRIPT, SCRIPT_ROOM or LIST_ROOM. Each glyph starts as a new drawing, and its
   records are those of its own script run alone with room enough, which is proved.

   scale     the scale in 16.16. Below 1 it is BAD_SCALE.
   params    as for spoonglacier_write. A count outside 0 to 7 is BAD_BLUES.
   commands  `command_words` words: those of the glyphs, one glyph behind the other, as in a script.
             A mask is its kind, its start and its length; the start counts from the glyph's own
             first mask byte. A command whose operands are not all among the glyph's own words is
             BAD_COMMAND, and a mask that does not end within its own bytes BAD_MASK.
   masks     `mask_bytes` bytes: those of the glyphs, one glyph behind the other, with nothing
             between them. A glyph may leave bytes unused and use others twice.
   lengths   `length_words` words, two for each glyph: how many command words it has, and how many
             mask bytes. RUN_COUNT if they are odd in number or over 128, if one is negative, or if
             those of words, or of bytes, do not sum up to what is given.
   out       `out_words` words that nobody else reads or writes during the call and that overlap
             nothing that is given. On OK it holds the result: 1, the number of glyphs; for each
             glyph where its records start, counted in words from `out` on, and how many words they
             have; then the records. The words behind them are as they were. On every refusal no
             word is changed. Words past 2147483647 are not looked at.
   written   where the number of words of the result is left; 0 if refused.
   glyph     where the glyph at fault is left, which counts from 1: of BAD_COMMAND and BAD_MASK the
             first that has one, of NO_ROOM the first whose records do not fit, or 0 if the words
             before the records do not; of all others 0.
   place     where the place is left: of BAD_COMMAND and BAD_MASK the kind word of the first such
             command, counted from 0 among its glyph's own words; of all others 0.

   Refusals come in this order: RUN_COUNT, the scale, the counts, the commands of all glyphs first
   to last, NO_ROOM. No glyphs are a label too. The three pointers may not be null or lie in a
   buffer, and point to three places. Lengths, alignment, stack, threads and state are as for
   spoonglacier_run. */
uint32_t spoonglacier_labels(int32_t scale, const int32_t *params, size_t params_words,
                             const int32_t *commands, size_t command_words, const uint8_t *masks,
                             size_t mask_bytes, const int32_t *lengths, size_t length_words,
                             int32_t *out, size_t out_words, size_t *written, size_t *glyph,
                             size_t *place);

#ifdef __cplusplus
}
#endif

#endif
