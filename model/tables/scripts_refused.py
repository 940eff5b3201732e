"""Refusals of scripts, and answers OK next to them.

The number and the place of each are written by hand beside its case, from 01's table, and the model
is compared with them. What a script writes comes from the model.
"""

from itertools import combinations

from ..calls import (
    BAD_BLUES, BAD_COMMAND, BAD_MASK, BAD_SCALE, BAD_SCRIPT, CLOSE, COUNTER_MASK, CURVE, FINISH, HINT_MASK, NO_ROOM, OK,
    STEM
)
from ..numbers import HIGH, LOW
from ..script import COUNTS, MOST_BYTES, OPERANDS
from .scripts_form import AMPLE, byte, length, refused_case, word, words
from .scripts_good import EMPTY, FAULTY, FULL, LAST, LETTER, LETTER_KINDS, WHOLE


def filled(count, kind=CLOSE, last=FINISH):
    """Changes of EMPTY: commands of one word up to so many bytes."""
    end = count // 4
    return [length(count, kind), word(end - 1, last), *words(w5=end - 16, w6=end)]


def lengths():
    """Too short, too long, and not in fours; from 32 bytes on the header speaks."""
    for count in [0, 1, 3, 4, 28, 31, 33, 34, 35, 63, 65, 66, 101, 102, 103, 105]:
        yield WHOLE, [length(count)], BAD_SCRIPT, 0
    for count in [32, 36, 60, 64, 100]:
        yield WHOLE, [length(count)], BAD_SCRIPT, 5
    yield WHOLE, [length(108)], BAD_SCRIPT, 7
    # The longest scripts, and too long ones whose headers are right.
    yield EMPTY, filled(MOST_BYTES - 4), OK, 0
    yield EMPTY, filled(MOST_BYTES), OK, 0
    yield EMPTY, filled(MOST_BYTES, last=CURVE), BAD_COMMAND, 16383
    yield EMPTY, filled(MOST_BYTES, kind=FINISH), NO_ROOM, 16 + AMPLE - 4
    yield EMPTY, filled(MOST_BYTES, kind=10), BAD_COMMAND, 16
    yield EMPTY, filled(MOST_BYTES + 4), BAD_SCRIPT, 0
    for more in [1, 2, 3]:
        yield EMPTY, [*filled(MOST_BYTES), length(MOST_BYTES + more)], BAD_SCRIPT, 0
    # A script of mask bytes up to the most, and past it.
    yield EMPTY, [length(MOST_BYTES), word(7, MOST_BYTES - 64)], OK, 0
    yield EMPTY, [length(MOST_BYTES), word(7, MOST_BYTES - 67)], OK, 0
    yield EMPTY, [length(MOST_BYTES), word(7, MOST_BYTES - 68)], BAD_SCRIPT, 7
    yield EMPTY, [length(MOST_BYTES + 4), word(7, MOST_BYTES - 60)], BAD_SCRIPT, 0


def header_words():
    """Words 0 to 7 but the scale, each wrong in every way that 01's row names."""
    for value in [LOW, -1, 0, 2, 257, 65537, 1 << 24, HIGH]:
        yield WHOLE, [word(0, value)], BAD_SCRIPT, 0
    for value in [LOW, -8, 0, 7, 9, 264, 8 << 24, HIGH]:
        yield WHOLE, [word(2, value)], BAD_SCRIPT, 2
    for value in [LOW, LOW + 8, -1, 0, 7, 65, 66, HIGH]:
        yield WHOLE, [word(3, value)], BAD_SCRIPT, 3
    # The count of parameters is in its range, and word 4 is not the one that goes with it.
    for value in [9, 10, 64]:
        yield WHOLE, [word(3, value)], BAD_SCRIPT, 4
    for value in [LOW, LOW + 16, -16, 0, 8, 15, 17, HIGH]:
        yield WHOLE, [word(4, value)], BAD_SCRIPT, 4
    for script in [WHOLE, LETTER]:
        yield from last_words(script)
    for value in [0, 4]:
        yield LETTER, [word(7, value)], BAD_SCRIPT, 7
    # Commands that would start past 32 bytes, at their end, and past 60.
    yield EMPTY, [length(32)], BAD_SCRIPT, 5
    yield EMPTY, [length(32), word(5, -8), word(6, 8)], BAD_SCRIPT, 5
    yield EMPTY, [length(60)], BAD_SCRIPT, 5


def last_words(script):
    """Words 5 to 7."""
    first, number, masks, mask_bytes = script[4:8]
    # One word past the end; sums with word 4 that wrap at 32 bits, as words and as bytes.
    for value in [LOW, LOW + number, -1, -first, len(script) - first + 1, 2**30 + number, HIGH - first + 1, HIGH]:
        yield script, [word(5, value)], BAD_SCRIPT, 5
    for value in [0, number - 1]:
        yield script, [word(5, value)], BAD_SCRIPT, 6
    for value in [LOW, LOW + masks, -masks, 0, masks - 1, masks + 1, 2**30 + masks, HIGH]:
        yield script, [word(6, value)], BAD_SCRIPT, 6
    # One word of the commands is left over.
    yield script, [word(5, number - 1), word(6, masks - 1)], BAD_SCRIPT, 7
    # Numbers of bytes below 0, some of which padding takes to 0; others whose padded end wraps.
    rest = 4 * (len(script) - masks)
    for value in [LOW, LOW + mask_bytes, -4, -3, -2, -1, rest + 1, rest + 4, 2**30 + rest, HIGH - 3, HIGH]:
        yield script, [word(7, value)], BAD_SCRIPT, 7


def padding():
    """Each padding byte after 5, 6 and 7 mask bytes in two words. After 8 there is none."""
    last = 4 * len(LETTER)
    for number in [5, 6, 7]:
        for at in range(last - 8 + number, last):
            for value in [1, 128]:
                yield LETTER, [word(7, number), byte(at, value)], BAD_SCRIPT, 7
        # The last byte of the masks may be any.
        yield LETTER, [word(7, number), byte(last - 9 + number, 129)], OK, 0
    yield LETTER, [word(7, 8), word(71, -1)], OK, 0
    for at in [65, 66, 67]:
        yield EMPTY, [length(68), word(7, 1), byte(at, 16)], BAD_SCRIPT, 7
    yield EMPTY, [length(68), word(7, 1), byte(64, 16)], OK, 0


def parameters():
    """The scale, the counts, and word 3 against the pairs."""
    for script in [WHOLE, LETTER]:
        for value in [LOW, -65536, -1, 0]:
            yield script, [word(1, value)], BAD_SCALE, 1
        for value in [1, HIGH]:
            yield script, [word(1, value)], OK, 0
        for place in COUNTS:
            for value in [LOW, -1, 8, 257, HIGH]:
                yield script, [word(place, value)], BAD_BLUES, place
            # In its range, and another than word 3 has.
            yield script, [word(place, script[place] + 1)], BAD_SCRIPT, 3
            yield script, [word(place, 7)], BAD_SCRIPT, 3
    for first, second in combinations(COUNTS, 2):
        yield WHOLE, [word(first, -1), word(second, 8)], BAD_BLUES, first
        yield WHOLE, [word(second, -1), word(first, 8)], BAD_BLUES, first
    yield from pair_counts()


def pair_counts():
    """Counts of pairs against word 3."""
    for place in COUNTS:
        yield LETTER, [word(place, LETTER[place] - 1)], BAD_SCRIPT, 3
    # Counts outside their range whose sum is the right one.
    yield LETTER, words(w12=8, w13=-2, w14=0, w15=0), BAD_BLUES, 12
    yield LETTER, words(w12=0, w13=-1, w14=7, w15=0), BAD_BLUES, 13
    # Another split of the same pairs is fine.
    yield LETTER, words(w12=6, w13=0, w14=0, w15=0), OK, 0
    yield LETTER, words(w12=0, w13=0, w14=0, w15=6), OK, 0
    yield FULL, [word(15, 6)], BAD_SCRIPT, 3
    # A count of parameters that is odd, or has room for a pair more, and offsets to go with it.
    for more in [1, 2]:
        yield WHOLE, words(w3=8 + more, w4=16 + more, w5=10 - more), BAD_SCRIPT, 3
    # Word 3 is 64 and the pairs are none: the commands start at 72.
    yield EMPTY, [length(288), *words(w3=64, w4=72, w6=72)], BAD_SCRIPT, 3


def kinds():
    """A kind that is none, at each command."""
    for place in LETTER_KINDS:
        for value in [0, 10]:
            yield LETTER, [word(place, value)], BAD_COMMAND, place
    for value in [-9, -5, -1]:
        yield LETTER, [word(28, value)], BAD_COMMAND, 28
    for value in [LOW, LOW + 5, 5 + 256, 5 + 65536, 5 << 24, HIGH]:
        yield WHOLE, [word(16, value)], BAD_COMMAND, 16
    # A finish that is a stem takes the next finish for an operand, and lacks one.
    yield LETTER, [word(68, STEM)], BAD_COMMAND, 68


def cuts():
    """The last operands cut off: by the script's end, or by mask bytes that start there."""
    for kind, script in LAST.items():
        number, end, count = script[5], script[6], OPERANDS[kind]
        for missing in range(1, count + 1):
            cut = words(w5=number - missing, w6=end - missing)
            yield script, [length(4 * (end - missing)), *cut], BAD_COMMAND, 17
            yield script, [*cut, word(7, 4 * missing)], BAD_COMMAND, 17
        yield script, [], OK, 0
    # Operands that are cut off come before a mask that is bad.
    for kind in [HINT_MASK, COUNTER_MASK]:
        yield LAST[kind], [length(76), *words(w5=3, w6=19, w18=-1)], BAD_COMMAND, 17


def masks():
    """Both commands with masks, where five mask bytes are."""
    for place in [28, 34]:
        bad = [(-1, 0), (-1, 1), (LOW, 0), (LOW, LOW), (LOW, HIGH), (0, -1), (6, -1), (5, LOW), (0, LOW)]
        # Past the end: into the padding, by one, and by sums that wrap at 32 bits.
        bad += [(0, 6), (4, 2), (5, 1), (6, 0), (0, 8), (8, 0), (9, 0), (0, 9)]
        bad += [(HIGH, 0), (HIGH, 1), (1, HIGH), (0, HIGH), (HIGH, HIGH), (2**30, 2**30), (HIGH - 4, 10)]
        for start, count in bad:
            yield FAULTY, [word(place + 1, start), word(place + 2, count)], BAD_MASK, place
        for start, count in [(0, 0), (0, 5), (4, 1), (5, 0), (2, 3)]:
            yield FAULTY, [word(place + 1, start), word(place + 2, count)], OK, 0
    # No mask bytes at all.
    for kind in [HINT_MASK, COUNTER_MASK]:
        yield LAST[kind], [word(19, 1)], BAD_MASK, 17
        yield LAST[kind], [word(18, 1)], BAD_MASK, 17
    # The longest mask: all bytes of a long script, and one more.
    most = MOST_BYTES - 80
    long = [length(MOST_BYTES), word(7, most)]
    yield LAST[HINT_MASK], [*long, word(19, most)], OK, 0
    yield LAST[HINT_MASK], [*long, word(19, most + 1)], BAD_MASK, 17
    yield LAST[HINT_MASK], [*long, word(18, most - 1), word(19, 1)], OK, 0


# One fault of each row, in 01's order: the changes of FAULTY, the room, the number and the place.
# The last one is no fault of the script.
FAULTS = [
    ([length(4 * len(FAULTY) + 1)], AMPLE, BAD_SCRIPT, 0),
    ([word(0, 2)], AMPLE, BAD_SCRIPT, 0),
    ([word(2, 7)], AMPLE, BAD_SCRIPT, 2),
    ([word(3, 65)], AMPLE, BAD_SCRIPT, 3),
    ([word(4, 29)], AMPLE, BAD_SCRIPT, 4),
    ([word(5, 13)], AMPLE, BAD_SCRIPT, 5),
    ([word(6, 39)], AMPLE, BAD_SCRIPT, 6),
    ([word(7, 9)], AMPLE, BAD_SCRIPT, 7),
    ([byte(159, 1)], AMPLE, BAD_SCRIPT, 7),
    ([word(1, 0)], AMPLE, BAD_SCALE, 1),
    ([word(12, 8)], AMPLE, BAD_BLUES, 12),
    ([word(13, -1)], AMPLE, BAD_BLUES, 13),
    ([word(15, 9)], AMPLE, BAD_BLUES, 15),
    ([word(14, 1)], AMPLE, BAD_SCRIPT, 3),
    ([word(29, -1)], AMPLE, BAD_MASK, 28),
    ([word(31, 0)], AMPLE, BAD_COMMAND, 31),
    ([word(36, 5)], AMPLE, BAD_MASK, 34),
    ([word(37, 10)], AMPLE, BAD_COMMAND, 37),
    ([], 3, NO_ROOM, 28),
]


def order():
    """Every two faults: the first in 01's order wins."""
    for first, second in combinations(FAULTS, 2):
        changes, room, number, place = first
        other, least, *_ = second
        yield FAULTY, [*changes, *other], number, place, min(room, least)


def tables():
    parts = [lengths, header_words, padding, parameters, kinds, cuts, masks, order]
    return [[refused_case(*case) for case in cases()] for cases in parts]
