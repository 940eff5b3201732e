/* Measures how the work of spoonglacier_write grows with the number of commands. Every size has the same
   mix, ten commands over and over, and all 28 pairs; 10,000 commands make nearly the longest script.
   Three things are had for each size: the time, as the least of several rounds; the instructions of one
   call, which are counted by the processor's trap flag, a signal for each; and the bytes of one call that
   memcpy, memset and memmove are called for. Refusals that are found last of all are measured likewise.

   Every ratio of instructions has to be under 2, and of times every one from 1,000 commands on: shorter
   calls are mostly what does not depend on the commands, and its time under an emulator swings. */
#include <signal.h>
#include <stdint.h>
#include <stdio.h>
#include <stdlib.h>
#include <string.h>
#include <time.h>
#include <x86intrin.h>

#include "spoonglacier.h"

void *__real_memcpy(void *to, const void *from, size_t bytes);
void *__real_memset(void *to, int byte, size_t bytes);
void *__real_memmove(void *to, const void *from, size_t bytes);

enum { one = SPOONGLACIER_ONE, mix_commands = 10, mix_words = 15, mix_written = 16, trap_flag = 0x100 };
enum { most = 10000, most_words = most / mix_commands * mix_words, most_masks = most / mix_commands + 1 };
enum { rounds = 15, round_commands = 2 * most, base = 2, limit = 2, timed_from = 1000, cannot = 3 };

/* In a script the mask has a third word, its start. */
static const int32_t mix[mix_words] = {
    SPOONGLACIER_STEM, 16 * one, 80 * one, SPOONGLACIER_MOVE, 0, 16 * one, SPOONGLACIER_HINT_MASK, 1,
    SPOONGLACIER_CLOSE, SPOONGLACIER_CLEAR, SPOONGLACIER_CLOSE, SPOONGLACIER_CLEAR,
    SPOONGLACIER_CLOSE, SPOONGLACIER_CLEAR, SPOONGLACIER_CLOSE,
};

/* What is called: so many commands of the mix, the last one replaced by no kind at all, mask bytes that
   are left over, bytes of room that are missing; and the answer that this has. */
static const struct {
    const char *name;
    size_t commands, no_kind, left_over, missing;
    uint32_t answer;
} inputs[] = {
    {"written", 10, 0, 0, 0, SPOONGLACIER_OK},
    {"written", 100, 0, 0, 0, SPOONGLACIER_OK},
    {"written", 1000, 0, 0, 0, SPOONGLACIER_OK},
    {"written", 5000, 0, 0, 0, SPOONGLACIER_OK},
    {"written", 10000, 0, 0, 0, SPOONGLACIER_OK},
    {"last command bad", 10000, 1, 0, 0, SPOONGLACIER_BAD_COMMAND},
    {"a mask byte left over", 10000, 0, 1, 0, SPOONGLACIER_BAD_MASK},
    {"a byte too little room", 10000, 0, 0, 1, SPOONGLACIER_SCRIPT_ROOM},
};
enum { input_count = sizeof inputs / sizeof *inputs };

enum { pairs = SPOONGLACIER_MOST_PAIRS, fixed_words = SPOONGLACIER_HEADER_WORDS + SPOONGLACIER_PARAMS_WORDS };

static const spoonglacier_params params = {
    .blue_scale = 2597, .blue_shift = 7 * one, .blue_fuzz = one,
    .blues_count = pairs, .other_blues_count = pairs, .family_blues_count = pairs, .family_other_blues_count = pairs,
};
static int32_t commands[most_words];
static uint8_t masks[most_masks], script[SPOONGLACIER_MOST_SCRIPT_BYTES];

static void stop(int status, const char *why) {
    fprintf(stderr, "growth: %s\n", why);
    exit(status);
}

/* ---- what is counted */
static int counting;
static uint64_t copied;
static volatile uint64_t steps;

void *__wrap_memcpy(void *to, const void *from, size_t bytes) {
    copied += counting ? bytes : 0;
    return __real_memcpy(to, from, bytes);
}

void *__wrap_memset(void *to, int byte, size_t bytes) {
    copied += counting ? bytes : 0;
    return __real_memset(to, byte, bytes);
}

void *__wrap_memmove(void *to, const void *from, size_t bytes) {
    copied += counting ? bytes : 0;
    return __real_memmove(to, from, bytes);
}

static void step(int number) {
    (void)number;
    steps++;
}

/* ---- the calls */
typedef struct {
    size_t words, mask_bytes, room;
} lengths;

static lengths prepare(int input) {
    size_t turns = inputs[input].commands / mix_commands, bytes = turns + inputs[input].left_over;
    size_t size = 4 * (fixed_words + mix_written * turns + (turns + 3) / 4);
    for (size_t turn = 0; turn < turns; turn++) {
        memcpy(commands + turn * mix_words, mix, sizeof mix);
        masks[turn] = 0x80;
    }
    if (inputs[input].no_kind)
        commands[turns * mix_words - 1] = 0;
    return (lengths){turns * mix_words, bytes, size - inputs[input].missing};
}

/* Calls, and holds the answer to what is expected. With `traps`, one signal for each instruction. */
static void call(int input, lengths given, int traps) {
    size_t written = 1, place = 1, expected = 0;
    unsigned long long flags = __readeflags();
    uint32_t answer;
    if (traps)
        __writeeflags(flags | trap_flag);
    answer = spoonglacier_write(one / 32, (const int32_t *)&params, SPOONGLACIER_PARAMS_WORDS, commands, given.words,
                                masks, given.mask_bytes, script, given.room, &written, &place);
    if (traps)
        __writeeflags(flags);
    if (answer == SPOONGLACIER_BAD_COMMAND)
        expected = given.words - 1;
    if (answer == SPOONGLACIER_BAD_MASK)
        expected = given.words;
    if (answer != inputs[input].answer || place != expected || written != (answer ? 0 : given.room))
        stop(1, "an answer is not the expected one");
}

static double now(void) {
    struct timespec t;
    if (clock_gettime(CLOCK_MONOTONIC, &t) != 0)
        stop(cannot, "no clock");
    return (double)t.tv_sec + 1e-9 * (double)t.tv_nsec;
}

/* The time of a command, over calls that have as many commands together for each size. */
static double timed(int input) {
    lengths given = prepare(input);
    size_t calls = round_commands / inputs[input].commands;
    double start = now();
    for (size_t i = 0; i < calls; i++)
        call(input, given, 0);
    return (now() - start) / (double)(calls * inputs[input].commands);
}

static double counted(int input) {
    lengths given = prepare(input);
    copied = steps = 0;
    counting = 1;
    call(input, given, 1);
    counting = 0;
    return (double)steps / (double)inputs[input].commands;
}

int main(void) {
    double times[input_count], counts[input_count];
    uint64_t bytes[input_count];
    int under = 1;
    if (signal(SIGTRAP, step) == SIG_ERR)
        stop(cannot, "no signals");
    for (int round = 0; round < rounds; round++)
        for (int i = 0; i < input_count; i++) {
            double time = timed(i);
            if (round == 0 || time < times[i])
                times[i] = time;
        }
    for (int i = 0; i < input_count; i++) {
        counts[i] = counted(i);
        bytes[i] = copied;
        if (counts[i] == 0)
            stop(cannot, "the trap flag counts no instructions here");
    }
    printf("%-22s  %8s  %12s  %5s  %5s  %5s\n", "call", "commands", "instructions", "ratio", "time", "bytes");
    for (int i = 0; i < input_count; i++) {
        double count = counts[i] / counts[base], time = times[i] / times[base];
        printf("%-22s  %8zu  %12.1f  %5.2f  %5.2f  %5lu\n", inputs[i].name, inputs[i].commands, counts[i], count, time,
               (unsigned long)bytes[i]);
        under = under && count < limit && (time < limit || inputs[i].commands < timed_from);
    }
    printf("instructions: of a command; ratio: the same, by those at %zu commands; time: of a command, in the same\n"
           "way; bytes: of a call, in memcpy, memset and memmove\n", inputs[base].commands);
    printf("%s\n", under ? "every ratio that is judged is under 2" : "a ratio that is judged is 2 or more");
    return under ? 0 : 1;
}
