/* Measures how deep a call of the static library goes down the stack. The call runs on a stack of
   its own that is filled with a pattern; the deepest byte that no longer holds the pattern says how
   much was used. The scripts are those of the files that are named, tables as crates/test_scripts reads
   them, and demanding ones that are made here: full lists of pairs, more stems than are kept, masks
   that change between all strokes, and paths up to the longest script. Each is run, and its edges are
   listed; of the demanding ones words of labels are made, which label runs hint. Scripts up to the longest
   are written too, with no pairs to all 28. Each kind of refusal is called for. */
#include <stdint.h>
#include <stdio.h>
#include <stdlib.h>
#include <string.h>
#include <ucontext.h>

#include "spoonglacier.h"

enum { stack_bytes = 1 << 20, pattern = 0xA5, one = SPOONGLACIER_ONE, most_words = SPOONGLACIER_MOST_SCRIPT_BYTES / 4 };
enum { room = 2 * most_words, case_words = 6, most_case_bytes = 1 << 17 };

static uint8_t stack[stack_bytes] __attribute__((aligned(64)));
static ucontext_t back, there;

/* The call that is to be run, and its answer. */
static const uint8_t *script;
static size_t script_bytes, out_words, place;
static int32_t out[room];
static uint32_t answer;

static void stop(const char *why) {
    fprintf(stderr, "stack: %s\n", why);
    exit(1);
}

static void run_call(void) {
    answer = spoonglacier_run(script, script_bytes, out, out_words, &place);
}

/* All commands are done, into the same words, of which a full map takes the first few. */
static void edges_call(void) {
    size_t edges, pairs, ghosts, locked;
    answer = spoonglacier_edges(script, script_bytes, SIZE_MAX, out, out_words, &edges, &pairs, &ghosts, &locked,
                                &place);
}

/* The function that is called, and its name. */
static void (*call)(void);
static const char *called;

/* Calls a function on the stack that is looked at. */
static void on_stack(void (*function)(void)) {
    if (getcontext(&there) != 0)
        stop("no context");
    there.uc_stack.ss_sp = stack;
    there.uc_stack.ss_size = stack_bytes;
    there.uc_link = &back;
    makecontext(&there, function, 0);
    if (swapcontext(&back, &there) != 0)
        stop("no context");
}

static void run(const uint8_t *bytes, size_t count, size_t words) {
    script = bytes;
    script_bytes = count;
    out_words = words;
    on_stack(call);
}

static void paint(void) {
    memset(stack, pattern, stack_bytes);
}

/* The bytes from the top of the stack down to the deepest one that was written. */
static size_t used(void) {
    size_t at = 0;
    while (at < stack_bytes && stack[at] == pattern)
        at++;
    return stack_bytes - at;
}

/* The deepest call so far, over all groups of scripts. */
static size_t deepest;

static void report(const char *name, int calls, int fine) {
    size_t bytes = used();
    if (bytes > deepest)
        deepest = bytes;
    printf("%s, %s: %d calls, %d of them OK, %zu bytes\n", called, name, calls, fine, bytes);
}

/* ---- stored scripts */
static uint32_t word(FILE *file) {
    uint8_t b[4];
    if (fread(b, 1, 4, file) != 4)
        stop("a table is cut off");
    return b[0] | (uint32_t)b[1] << 8 | (uint32_t)b[2] << 16 | (uint32_t)b[3] << 24;
}

static void stored(const char *name) {
    static uint8_t bytes[most_case_bytes];
    int scripts = 0, fine = 0, next;
    FILE *file = fopen(name, "rb");
    if (!file)
        stop(name);
    paint();
    while ((next = getc(file)) != EOF) {
        ungetc(next, file);
        for (uint32_t left = word(file); left > 0; left--) {
            uint32_t header[case_words];
            for (int i = 0; i < case_words; i++)
                header[i] = word(file);
            uint32_t length = header[0], words = header[1], padded = (length + 3) / 4 * 4;
            if (padded > most_case_bytes || words > room || fread(bytes, 1, padded, file) != padded)
                stop("a case is cut off or too large");
            run(bytes, length, words);
            if (fseek(file, 4 * (long)words, SEEK_CUR) != 0)
                stop("a case is cut off");
            scripts++;
            fine += answer == SPOONGLACIER_OK;
        }
    }
    fclose(file);
    report(name, scripts, fine);
}

/* ---- scripts that are made here */
static int32_t words[most_words];
static int32_t count;

static void put(int32_t w) {
    words[count++] = w;
}

static void put3(int32_t kind, int32_t a, int32_t b) {
    put(kind);
    put(a);
    put(b);
}

static void parameters(int group, int pairs, int step) {
    int32_t lists = 4, at = SPOONGLACIER_HEADER_WORDS + SPOONGLACIER_PARAMETER_WORDS + 2 * lists * pairs;
    int32_t header[] = {1, 0, SPOONGLACIER_HEADER_WORDS, at - SPOONGLACIER_HEADER_WORDS, at, 0, 0, 0};
    int32_t fixed[] = {2597, 7 * one, one, group, pairs, pairs, pairs, pairs};
    count = 0;
    for (int i = 0; i < SPOONGLACIER_HEADER_WORDS; i++)
        put(header[i]);
    for (int i = 0; i < SPOONGLACIER_PARAMETER_WORDS; i++)
        put(fixed[i]);
    for (int i = 0; i < lists * pairs; i++) {
        put(step * i * one);
        put((step * i + 10) * one);
    }
}

/* Stems, then masks and strokes in turn until the script is full. */
static void commands(int stems, int step, int width, int masked) {
    int32_t first = words[4], end = most_words - 64, turn = 0;
    for (int i = 0; i < stems; i++)
        put3(SPOONGLACIER_STEM, step * i * one, (step * i + width) * one);
    while (count < end) {
        int32_t y = (turn * 37 % 2000 - 100) * one;
        if (masked) {
            put3(SPOONGLACIER_COUNTER_MASK, turn % 13, SPOONGLACIER_MASK_BYTES);
            put3(SPOONGLACIER_HINT_MASK, turn % 17, SPOONGLACIER_MASK_BYTES + turn % 2);
        }
        put3(SPOONGLACIER_MOVE, turn * one, y);
        put3(SPOONGLACIER_LINE, 3 * one, y + 5 * one);
        put(SPOONGLACIER_CURVE);
        for (int i = 0; i < 6; i++)
            put(y + i * one);
        put3(SPOONGLACIER_LINE, 5 * one, y);
        put(SPOONGLACIER_CLOSE);
        if (turn++ % 50 == 49) {
            put(SPOONGLACIER_CLEAR);
            for (int i = 0; i < stems && count < end; i++)
                put3(SPOONGLACIER_STEM, step * i * one, (step * i + width) * one);
        }
    }
    put(SPOONGLACIER_FINISH);
    words[5] = count - first;
    words[6] = count;
}

/* Thirty-two mask bytes, most of them with many bits. */
static void masks(void) {
    words[7] = 32;
    for (int i = 0; i < 8; i++)
        put((int32_t)(UINT32_C(0xFFF7BDAF) * (uint32_t)(2 * i + 1)));
}

/* Makes each of these scripts in turn, as words, for a function that takes it from there. */
static void each_made(void (*take)(void)) {
    static const int widths[] = {-20, -21, 0, 3, 11, 40, -60};
    static const int32_t scales[] = {1, 700, 2048, 2597, 65536, 1 << 24};
    for (size_t w = 0; w < sizeof widths / sizeof *widths; w++)
        for (size_t s = 0; s < sizeof scales / sizeof *scales; s++)
            for (int shape = 0; shape < 8; shape++) {
                int group = shape & 1, pairs = shape & 2 ? SPOONGLACIER_MOST_PAIRS : 0, masked = shape >> 2;
                parameters(group, pairs, 40);
                commands(SPOONGLACIER_MOST_STEMS + 4, 12, widths[w], masked);
                masks();
                words[1] = scales[s];
                take();
            }
}

static int made_scripts;

static void run_made(void) {
    static uint8_t bytes[SPOONGLACIER_MOST_SCRIPT_BYTES];
    for (int32_t i = 0; i < count; i++)
        for (int k = 0; k < 4; k++)
            bytes[4 * i + k] = (uint8_t)((uint32_t)words[i] >> (8 * k));
    run(bytes, 4 * (size_t)count, room);
    if (answer != SPOONGLACIER_OK)
        stop("a script that is made here is refused");
    made_scripts++;
}

static void made(void) {
    made_scripts = 0;
    paint();
    each_made(run_made);
    report("made here", made_scripts, made_scripts);
}

/* ---- scripts that are written, from the words above without their header and parameters */
enum { written_room = 2 * SPOONGLACIER_MOST_SCRIPT_BYTES, most_masks = SPOONGLACIER_MOST_SCRIPT_BYTES, lists = 4 };

static int32_t scale, params[SPOONGLACIER_PARAMS_WORDS];
static uint8_t mask_bytes[most_masks], written_script[written_room];
static size_t params_words, masks_given, write_room, written;
static int calls, fine_calls;

static void write_call(void) {
    answer = spoonglacier_write(scale, params, params_words, words, (size_t)count, mask_bytes, masks_given,
                                written_script, write_room, &written, &place);
}

/* Makes the call, which must have this answer. */
static void expect(uint32_t number) {
    on_stack(call);
    if (answer != number)
        stop("a call has another answer than it should");
    calls++;
    fine_calls += answer == SPOONGLACIER_OK;
}

/* Gives what is written as so many words in all, with so many pairs a list: stems, masks and strokes as
   long as there is room, a mask after whose bytes three are missing to a word, and commands of one word. */
static void give(int pairs, size_t size) {
    size_t at = SPOONGLACIER_HEADER_WORDS + SPOONGLACIER_PARAMETER_WORDS + 2 * lists * (size_t)pairs, turn_words = 32;
    int32_t fixed[] = {2597, 7 * one, one, 0, pairs, pairs, pairs, pairs};
    scale = one;
    params_words = SPOONGLACIER_PARAMS_WORDS;
    for (int i = 0; i < SPOONGLACIER_PARAMS_WORDS; i++)
        params[i] = i < SPOONGLACIER_PARAMETER_WORDS ? fixed[i] : i * one;
    masks_given = 0;
    for (count = 0; at + (masks_given + 3) / 4 + turn_words <= size; at += 20) {
        put3(SPOONGLACIER_STEM, 16 * one, 80 * one);
        put(count % 2 ? SPOONGLACIER_HINT_MASK : SPOONGLACIER_COUNTER_MASK);
        put(SPOONGLACIER_MASK_BYTES + 1);
        masks_given += SPOONGLACIER_MASK_BYTES + 1;
        put3(SPOONGLACIER_MOVE, 0, 16 * one);
        put3(SPOONGLACIER_LINE, 100 * one, 16 * one);
        put(SPOONGLACIER_CURVE);
        for (int i = 0; i < 6; i++)
            put(i * one);
        put(SPOONGLACIER_CLOSE);
    }
    if (count > 0) {
        put(SPOONGLACIER_HINT_MASK);
        put(5 - (int32_t)(masks_given % 4));
        masks_given += 5 - masks_given % 4;
        at += 3;
    }
    for (at += (masks_given + 3) / 4; at < size; at++)
        put(SPOONGLACIER_CLEAR);
    write_room = 4 * size;
}

/* Every refusal of what was given, one at a time. */
static void refused(void) {
    scale = 0;
    expect(SPOONGLACIER_BAD_SCALE);
    scale = one;
    for (int i = lists; i < 2 * lists; i++) {
        int32_t pairs = params[i];
        params[i] = i % 2 ? -1 : SPOONGLACIER_MOST_PAIRS + 1;
        expect(SPOONGLACIER_BAD_BLUES);
        params[i] = pairs;
    }
    put(SPOONGLACIER_FINISH + 1);
    expect(SPOONGLACIER_BAD_COMMAND);
    words[count - 1] = SPOONGLACIER_CURVE;
    expect(SPOONGLACIER_BAD_COMMAND);
    words[count - 1] = SPOONGLACIER_HINT_MASK;
    put(1);
    expect(SPOONGLACIER_BAD_MASK);
    words[count - 1] = -1;
    expect(SPOONGLACIER_BAD_MASK);
    count -= 2;
    masks_given++;
    expect(SPOONGLACIER_BAD_MASK);
    masks_given--;
    write_room--;
    expect(SPOONGLACIER_SCRIPT_ROOM);
    write_room++;
}

/* The first time, memcpy may still have to be found, which the dynamic linker does on the same stack. */
static void made_to_write(const char *name) {
    static const int pair_counts[] = {0, 1, SPOONGLACIER_MOST_PAIRS};
    static const size_t sizes[] = {72, 80, 128, 1024, most_words - 1, most_words};
    calls = fine_calls = 0;
    paint();
    for (size_t p = 0; p < sizeof pair_counts / sizeof *pair_counts; p++)
        for (size_t s = 0; s < sizeof sizes / sizeof *sizes; s++) {
            give(pair_counts[p], sizes[s]);
            expect(SPOONGLACIER_OK);
            if (written != write_room)
                stop("a script that is written has another length than it should");
            refused();
            params_words = 0;
            expect(SPOONGLACIER_OK);
            params_words = SPOONGLACIER_PARAMS_WORDS;
            if (sizes[s] == most_words) {
                put(SPOONGLACIER_FINISH);
                write_room = written_room;
                expect(SPOONGLACIER_SCRIPT_ROOM);
            }
        }
    report(name, calls, fine_calls);
}

/* ---- words of labels: two glyphs that are made here, the same, and one without commands between them */
enum { label_glyphs = 3, label_lengths = SPOONGLACIER_GLYPH_LENGTHS * label_glyphs };

static int32_t label_commands[2 * most_words], lengths[label_lengths], label_out[2 * room];
static size_t label_words, length_words, label_room, glyph;

static void labels_call(void) {
    answer = spoonglacier_labels(scale, params, SPOONGLACIER_PARAMS_WORDS, label_commands, label_words, mask_bytes,
                                 masks_given, lengths, length_words, label_out, label_room, &written, &glyph, &place);
}

static void give_label(void) {
    size_t first = (size_t)words[4], own = (size_t)words[5], bytes = (size_t)words[7], pairs = (size_t)words[12];
    int32_t own_lengths[label_lengths] = {(int32_t)own, (int32_t)bytes, 0, 0, (int32_t)own, (int32_t)bytes};
    const int32_t *from = words + SPOONGLACIER_HEADER_WORDS;
    scale = words[1];
    memcpy(params, from, 4 * SPOONGLACIER_PARAMETER_WORDS);
    for (size_t i = 0; i < lists; i++)
        memcpy(params + SPOONGLACIER_PARAMETER_WORDS + 2 * SPOONGLACIER_MOST_PAIRS * i,
               from + SPOONGLACIER_PARAMETER_WORDS + 2 * pairs * i, 8 * pairs);
    for (size_t i = 0; i < 2; i++) {
        memcpy(label_commands + own * i, words + first, 4 * own);
        memcpy(mask_bytes + bytes * i, words + words[6], bytes);
    }
    memcpy(lengths, own_lengths, sizeof lengths);
    label_words = 2 * own;
    masks_given = 2 * bytes;
    length_words = label_lengths;
    label_room = 2 * room;
}

/* The word, and every refusal of it. Each is looked for before those above it, whose faults are left in. */
static void label_made(void) {
    size_t last_glyph;
    give_label();
    last_glyph = label_words / 2;
    expect(SPOONGLACIER_OK);
    label_room = written - 1;
    expect(SPOONGLACIER_NO_ROOM);
    label_commands[label_words - 1] = SPOONGLACIER_FINISH + 1;
    expect(SPOONGLACIER_BAD_COMMAND);
    label_commands[label_words - 1] = SPOONGLACIER_CURVE;
    expect(SPOONGLACIER_BAD_COMMAND);
    label_commands[last_glyph] = SPOONGLACIER_HINT_MASK;
    label_commands[last_glyph + 1] = -1;
    expect(SPOONGLACIER_BAD_MASK);
    params[lists] = SPOONGLACIER_MOST_PAIRS + 1;
    expect(SPOONGLACIER_BAD_BLUES);
    scale = 0;
    expect(SPOONGLACIER_BAD_SCALE);
    length_words--;
    expect(SPOONGLACIER_RUN_COUNT);
}

static void made_labels(void) {
    calls = fine_calls = 0;
    paint();
    each_made(label_made);
    report("made here", calls, fine_calls);
}

/* The scripts of the files that are named, and those that are made here. */
static void scripts_of(int argc, char **argv) {
    for (int i = 1; i < argc; i++)
        stored(argv[i]);
    made();
}

int main(int argc, char **argv) {
    call = write_call;
    called = "spoonglacier_write";
    made_to_write("first calls");
    made_to_write("later calls");
    call = run_call;
    called = "spoonglacier_run";
    scripts_of(argc, argv);
    call = labels_call;
    called = "spoonglacier_labels";
    made_labels();
    call = edges_call;
    called = "spoonglacier_edges";
    scripts_of(argc, argv);
    printf("deepest: %zu bytes, of %d that SPOONGLACIER_STACK_BYTES grants\n", deepest, SPOONGLACIER_STACK_BYTES);
    return deepest <= SPOONGLACIER_STACK_BYTES ? 0 : 1;
}
