"""Refusals of label runs, and answers OK next to them.

The number, the glyph and the place of each, and the words written, stand by hand beside its case,
from 02 and the readings of it, and the model is compared with them. The words come from the model.
"""

from itertools import combinations

from ..calls import (
    BAD_BLUES, BAD_COMMAND, BAD_MASK, BAD_SCALE, CLEAR, CLOSE, COUNTER_MASK, CURVE, FINISH, HINT_MASK, LINE, MOVE,
    NO_ROOM, STEM
)
from ..labels import MOST_GLYPHS, RUN_COUNT
from ..numbers import HIGH, LOW, ONE
from ..script import OPERANDS
from ..writer import MASK_KINDS
from .labels_by_hand import CURVED, EMPTY, ENDED, MOVED
from .labels_form import AMPLE, Glyph, fine, glyph, refused, run_of
from .writer_refused import some_bytes

# A stem, a hint mask, a counter mask and a finish, at 0, 3, 6 and 9; three mask bytes; one word of records.
MIXED = glyph((STEM, 0, 1), (HINT_MASK, 0, 1), (COUNTER_MASK, 1, 2), (FINISH,), masks=[0x80, 0xC0, 0x01])


def raw(*words, masks=()):
    """A glyph of words as they are."""
    return Glyph(list(words), bytes(masks))


def with_lengths(run, *lengths):
    return run._replace(lengths=list(lengths))


def with_length(run, at, more):
    """One of the lengths is so much more."""
    lengths = [*run.lengths]
    lengths[at] += more
    return with_lengths(run, *lengths)


# The list of lengths.


def lengths():
    """Lists that are odd, too long, or do not fill the words and the bytes exactly."""
    # Odd: with a length too many or too few, of none, of all that there is, and of what is missing.
    for more in [0, 1, -1, 4]:
        yield refused(with_lengths(run_of(ONE), more), RUN_COUNT)
        yield refused(with_lengths(run_of(ONE, ENDED, MIXED), 1, 0, 10, 3, more), RUN_COUNT)
    yield refused(with_lengths(run_of(ONE, ENDED), 1), RUN_COUNT)
    yield refused(with_lengths(run_of(ONE, MOVED, MOVED), 3, 0, 3), RUN_COUNT)
    yield refused(with_lengths(run_of(ONE, ENDED), 1, 0, 0), RUN_COUNT)
    yield refused(with_lengths(run_of(ONE), *[0] * 127), RUN_COUNT)
    yield refused(with_lengths(run_of(ONE), *[0] * 129), RUN_COUNT)
    # Too long: 65 glyphs or more, that are empty or not. With 64 all is fine.
    for count in [MOST_GLYPHS - 1, MOST_GLYPHS]:
        yield fine(run_of(ONE, MIXED, *[EMPTY] * (count - 1)), 3 + 2 * count)
    for count in [MOST_GLYPHS + 1, MOST_GLYPHS + 2, MOST_GLYPHS + 4]:
        yield refused(run_of(ONE, *[EMPTY] * count), RUN_COUNT)
        yield refused(run_of(ONE, *[ENDED] * count), RUN_COUNT)
        yield refused(run_of(ONE, MIXED, *[EMPTY] * (count - 1)), RUN_COUNT)
    yield from sums()
    yield from negative_lengths()


def sums():
    """Sums that are not the lengths of the lists."""
    # One too few and one too many, in words and in bytes, in the first, a middle and the last glyph.
    run = run_of(ONE, MIXED, ENDED, MIXED)
    for at in [0, 2, 4, 1, 3, 5]:
        for more in [-1, 1]:
            yield refused(with_length(run, at, more), RUN_COUNT)
    # Right in words and bytes together, and not in each.
    yield refused(with_lengths(run, 11, 2, 1, 0, 10, 3), RUN_COUNT)
    yield refused(with_lengths(run, 3, 10, 0, 1, 3, 10), RUN_COUNT)
    # All words before all bytes.
    yield refused(with_lengths(run, 10, 1, 10, 3, 0, 3), RUN_COUNT)
    # A glyph too few, and one too many.
    yield refused(with_lengths(run, 10, 3, 1, 0), RUN_COUNT)
    yield refused(with_lengths(run, *run.lengths, 10, 3), RUN_COUNT)
    # No glyphs, though there are words or bytes; and a glyph, though there are none.
    yield refused(with_lengths(run_of(ONE, ENDED)), RUN_COUNT)
    yield refused(with_lengths(run_of(ONE, raw(masks=[1]))), RUN_COUNT)
    yield refused(with_lengths(run_of(ONE), 1, 0), RUN_COUNT)
    yield refused(with_lengths(run_of(ONE), 0, 1), RUN_COUNT)
    # Sums that wrap at 32 bits to what is there.
    for lengths in [(HIGH, 0, HIGH, 0, 2, 0), (0, HIGH, 0, HIGH, 0, 2), (1 << 30, 0) * 4, (0, 1 << 30) * 4]:
        yield refused(with_lengths(run_of(ONE), *lengths), RUN_COUNT)
    yield refused(with_lengths(run_of(ONE, ENDED), 1, 0, *[HIGH, 0] * 2, 2, 0), RUN_COUNT)
    for length in [HIGH, 1 << 30, 65536, 257]:
        yield refused(with_lengths(run_of(ONE, ENDED), length, 0), RUN_COUNT)
        yield refused(with_lengths(run_of(ONE, ENDED), 1, length), RUN_COUNT)
    # Words and bytes may go to glyphs in any way.
    for lengths in [(0, 0, 1, 3), (1, 3, 0, 0), (0, 3, 1, 0), (1, 0, 0, 3), (0, 1, 1, 1, 0, 1)]:
        run = with_lengths(run_of(ONE, raw(FINISH, masks=[1, 2, 3])), *lengths)
        yield fine(run, 3 + len(lengths))


def negative_lengths():
    """A length below 0 is refused though the sum may be right."""
    two, bytes_of_two = run_of(ONE, raw(CLOSE, FINISH)), run_of(ONE, raw(masks=[1, 2]))
    for lengths in [(-1, 0), (0, -1), (LOW, 0), (0, LOW), (LOW, 0, LOW, 0), (0, LOW, 0, LOW), (1, 0, -1, 0), (-1, 1)]:
        yield refused(with_lengths(run_of(ONE), *lengths), RUN_COUNT)
    for lengths in [(3, 0, -1, 0), (-1, 0, 3, 0), (1, 0, -1, 0, 2, 0), (2, 0, 0, -1, 0, 1), (2, 1, 0, -1)]:
        yield refused(with_lengths(two, *lengths), RUN_COUNT)
    for lengths in [(0, 3, 0, -1), (0, -1, 0, 3), (0, 1, 0, -1, 0, 2), (0, 2, -1, 0, 1, 0), (-2, 0, 2, 2)]:
        yield refused(with_lengths(bytes_of_two, *lengths), RUN_COUNT)
    # The same in the last of the most glyphs.
    for last in [(-1, 0), (0, -1)]:
        yield refused(with_lengths(run_of(ONE), *[0] * 126, *last), RUN_COUNT)


# Scale and counts.


def numbers():
    """The scale and the counts, with no glyphs as well."""
    for run, size in [(run_of(ONE), 2), (run_of(ONE, EMPTY), 4), (run_of(ONE, MIXED, ENDED), 8)]:
        for scale in [LOW, -ONE, -1, 0]:
            yield refused(run._replace(scale=scale), BAD_SCALE)
        for scale in [1, 2, HIGH]:
            yield fine(run._replace(scale=scale), size)
    for run, size in [(run_of(ONE), 2), (run_of(ONE, ENDED), 5)]:
        for number in range(4):
            params = [2597, 0, 0, 0, *[0] * number]
            for count in [LOW, -1, 8, 9, 256, HIGH]:
                yield refused(run._replace(params=[*params, count]), BAD_BLUES)
            for count in [0, 1, 7]:
                yield fine(run._replace(params=[*params, count]), size)
    # Counts outside their range whose sum is in it, also after it wraps at 32 bits.
    for counts in [(8, -1), (0, -7, 7), (7, 7, 7, -21), (1 << 30,) * 4, (0, 0, LOW, LOW)]:
        yield refused(run_of(ONE, ENDED)._replace(params=[0, 0, 0, 0, *counts]), BAD_BLUES)
    # Pairs past a count are not looked at, nor is any word past the 64th.
    yield fine(run_of(ONE, MOVED)._replace(params=[1, 2, 3, 4, *[0] * 4, *[HIGH] * 56, *[8] * 8]), 7)


# Commands.


def among(before, each, after):
    """A glyph behind so many others and before so many."""
    return run_of(ONE, *[MIXED, MOVED, MIXED][:before], each, *[MOVED, MIXED][:after])


def commands():
    """Every kind with operands cut off, and kinds that are none, in the first, a middle and the last glyph."""
    for kind, count in OPERANDS.items():
        for missing in range(1, count + 1):
            # A close and a move come before it. The glyph behind has words enough.
            cut = raw(CLOSE, MOVE, 1, 2, kind, *[0] * (count - missing), masks=[1])
            yield refused(run_of(ONE, cut), BAD_COMMAND, 1, 4)
            yield refused(run_of(ONE, cut, CURVED), BAD_COMMAND, 1, 4)
            yield refused(run_of(ONE, MIXED, cut, CURVED), BAD_COMMAND, 2, 4)
            yield refused(run_of(ONE, MIXED, EMPTY, cut), BAD_COMMAND, 3, 4)
        # Cut off by its very end, and by a glyph without words.
        if count:
            alone = raw(kind, *[0] * (count - 1))
            yield refused(run_of(ONE, ENDED, EMPTY, alone, EMPTY, CURVED), BAD_COMMAND, 3, 0)
    for kind in [0, 10, -1, HIGH, LOW, 5 + 256, 5 << 24, LOW + 5, -5]:
        for before, after in [(0, 0), (0, 2), (1, 1), (3, 0)]:
            yield refused(among(before, raw(CLOSE, kind, 0, 0), after), BAD_COMMAND, before + 1, 1)
    # In the last of the most glyphs, and in the first.
    others = [ENDED] * (MOST_GLYPHS - 1)
    yield refused(run_of(ONE, *others, raw(CLOSE, CLEAR, 10)), BAD_COMMAND, MOST_GLYPHS, 2)
    yield refused(run_of(ONE, raw(CLOSE, CLEAR, 10), *others), BAD_COMMAND, 1, 2)
    # Operands that look like kinds, and like none, are fine.
    for value in [LOW, -1, 0, 2, 10, HIGH]:
        yield fine(run_of(ONE, raw(STEM, value, value), raw(LINE, value, value), raw(STEM, 0, value)), 8)
    yield from commands_across()


def commands_across():
    """Words that would be commands if the glyphs were not cut where they are."""
    # A move and a line, cut anywhere: only behind the move both parts are fine, and what waits is not written.
    words = [MOVE, 6 * ONE, 6 * ONE, LINE, 0, 0]
    for at in range(7):
        first, second = raw(*words[:at]), raw(*words[at:])
        if at in (1, 2):
            yield refused(run_of(ONE, first, second), BAD_COMMAND, 1, 0)
        elif at in (4, 5):
            yield refused(run_of(ONE, first, second), BAD_COMMAND, 1, 3)
        else:
            yield fine(run_of(ONE, first, second), 9)
    # The rest of a cut command is no command either, but the first glyph goes first.
    yield refused(run_of(ONE, raw(LINE, 1), raw(2, FINISH)), BAD_COMMAND, 1, 0)
    # Operands that are kinds: the cut moves them from one command to another.
    yield fine(run_of(ONE, raw(LINE, LINE, LINE), raw(FINISH)), 7)
    yield refused(run_of(ONE, raw(LINE, LINE), raw(LINE, FINISH)), BAD_COMMAND, 1, 0)
    yield refused(run_of(ONE, raw(FINISH), raw(LINE, LINE), raw(LINE, FINISH, FINISH)), BAD_COMMAND, 2, 0)


# Masks.


def masks():
    """Starts and lengths against the glyph's own bytes. Bytes stand before and behind those in the list."""
    for kind in MASK_KINDS:
        for before, after in [(0, 0), (0, 1), (1, 1), (3, 0)]:
            for start, length in [(-1, 1), (0, 6), (5, 1), (6, 0), (0, -1), (HIGH, 1), (LOW, 0)]:
                each = raw(CLOSE, kind, start, length, FINISH, masks=some_bytes(5))
                yield refused(among(before, each, after), BAD_MASK, before + 1, 1)
        for start, length in [(0, 0), (0, 5), (4, 1), (5, 0), (2, 2)]:
            each = raw(CLOSE, kind, start, length, FINISH, masks=some_bytes(5))
            # The header has 8 words, a move 3; each of the others has one.
            yield fine(run_of(ONE, MOVED, each, ENDED), 13)
            yield fine(run_of(ONE, MIXED, each, MIXED), 11)
    # A glyph without bytes between glyphs with bytes: all that it has is a mask of none.
    yield fine(run_of(ONE, MIXED, raw(HINT_MASK, 0, 0), MIXED), 10)
    for start, length in [(0, 1), (1, 0), (-3, 3), (-1, 1), (-3, 0)]:
        yield refused(run_of(ONE, MIXED, raw(HINT_MASK, start, length), MIXED), BAD_MASK, 2, 0)
    # Ends past 32 bits, and lengths of many bits.
    for start, length in [(HIGH, HIGH), (1, HIGH), (HIGH, 2), (4, HIGH - 3), (LOW, LOW), (1 << 30, 1 << 30), (0, 261)]:
        yield refused(run_of(ONE, ENDED, raw(COUNTER_MASK, start, length, masks=some_bytes(5))), BAD_MASK, 2, 0)
    # Operands of a mask are cut off before its bytes are looked at.
    yield refused(run_of(ONE, ENDED, raw(HINT_MASK, -1), raw(1, FINISH)), BAD_COMMAND, 2, 0)
    # Bytes that no mask takes, and bytes that several take.
    yield fine(run_of(ONE, raw(FINISH, masks=some_bytes(7)), raw(masks=some_bytes(4)), MIXED), 10)
    twice = raw(HINT_MASK, 0, 2, COUNTER_MASK, 0, 2, HINT_MASK, 1, 1, FINISH, masks=[0x80, 0x40])
    yield fine(run_of(ONE, twice, twice), 8)
    yield from own_bytes()


def own_bytes():
    """Bytes of other glyphs would choose other stems: of 10.25 to 20.25 and 40.25 to 60.25, one or the other."""
    stems = (STEM, 10.25, 20.25), (STEM, 40.25, 60.25)
    first, second, none, both = [
        glyph(*stems, (HINT_MASK, 0, 1), (MOVE, 0, 10.25), (MOVE, 0, 40.25), masks=[bits])
        for bits in (0x80, 0x40, 0x00, 0xC0)
    ]
    # The header has 2 words and 2 a glyph; a move has 3, a move and a close before it 4.
    for glyphs in [(first, second), (second, first), (first, none, second), (both, second, first, none)]:
        yield fine(run_of(ONE, *glyphs), 2 + 9 * len(glyphs))
    # Masks that start behind bytes which another mask has, and twelve and thirteen bytes.
    long = glyph(
        *stems, (HINT_MASK, 1, 12), (MOVE, 0, 40.25), (HINT_MASK, 0, 13), (LINE, 0, 10.25), (FINISH,),
        masks=[0x80, 0x40, *[0] * 11],
    )
    yield fine(run_of(ONE, first, long, second), 8 + 7 + 8 + 7)
    later = glyph(
        *stems, (HINT_MASK, 2, 1), (MOVE, 0, 10.25), (COUNTER_MASK, 1, 1), (HINT_MASK, 0, 3), (MOVE, 0, 40.25),
        masks=[0x00, 0xC0, 0x40],
    )
    yield fine(run_of(ONE, later, none, later, second), 10 + 4 * 7)


# Two faults.


# Five glyphs, each of a hint mask, a counter mask and a finish, at 0, 3 and 6, and of three mask bytes. The header has
# 12 words, each glyph's records one.
MASKED = glyph((HINT_MASK, 0, 1), (COUNTER_MASK, 1, 2), (FINISH,), masks=[0x80, 0xC0, 0x01])
FIVE = run_of(ONE, *[MASKED] * 5)
FIVE_SIZE = 17


def length(at, more):
    return lambda run, room: (with_length(run, at, more), room)


def one_length_more(run, room):
    return with_lengths(run, *run.lengths, 0), room


def many_lengths(run, room):
    return with_lengths(run, *run.lengths, *[0] * 120), room


def scale(value):
    return lambda run, room: (run._replace(scale=value), room)


def count(number, value):
    """A count of the parameters. The words before it stay."""

    def changed(run, room):
        params = [*run.params, *[0] * (8 - len(run.params))]
        return run._replace(params=[*params[: 4 + number], value, *params[5 + number :]]), room

    return changed


def word(glyph, at, value):
    """A word of a glyph, by its place among the glyph's own."""
    place = len(MASKED.words) * (glyph - 1) + at
    return lambda run, room: (run._replace(commands=[*run.commands[:place], value, *run.commands[place + 1 :]]), room)


def short_room(most):
    return lambda run, room: (run, min(most, room))


# One fault of each sort in FIVE, in 02's order, with its number, glyph and place.
FAULTS = [
    (one_length_more, RUN_COUNT, 0, 0),
    (many_lengths, RUN_COUNT, 0, 0),
    (length(8, 1), RUN_COUNT, 0, 0),
    (length(1, -1), RUN_COUNT, 0, 0),
    (scale(0), BAD_SCALE, 0, 0),
    (count(0, 8), BAD_BLUES, 0, 0),
    (count(3, -1), BAD_BLUES, 0, 0),
    (word(1, 2, 50), BAD_MASK, 1, 0),
    (word(1, 6, 10), BAD_COMMAND, 1, 6),
    (word(2, 4, -1), BAD_MASK, 2, 3),
    (word(3, 0, 0), BAD_COMMAND, 3, 0),
    (word(3, 5, 3), BAD_MASK, 3, 3),
    (word(5, 0, 11), BAD_COMMAND, 5, 0),
    (word(5, 6, CURVE), BAD_COMMAND, 5, 6),
    (short_room(11), NO_ROOM, 0, 0),
    (short_room(FIVE_SIZE - 1), NO_ROOM, 5, 0),
]


def two_faults():
    """Every fault alone, then every two of them: the first in 02's order wins."""
    yield fine(FIVE, FIVE_SIZE)
    for fault, *said in FAULTS:
        run, room = fault(FIVE, AMPLE)
        yield refused(run, *said, room=room)
    for (first, *said), (second, *_) in combinations(FAULTS, 2):
        run, room = second(*first(FIVE, AMPLE))
        yield refused(run, *said, room=room)
