"""Refusals of what a script is written from, and answers OK next to them.

The number and the place of each, and the size of what is written, stand by hand beside its case,
from 02 and the readings of it, and the model is compared with them. The bytes come from the model.
"""

from itertools import combinations

from ..calls import (
    BAD_BLUES, BAD_COMMAND, BAD_MASK, BAD_SCALE, CLEAR, CLOSE, COUNTER_MASK, CURVE, FINISH, HINT_MASK, LINE, MOVE, STEM
)
from ..numbers import HIGH, LOW, ONE
from ..script import COUNTS
from ..writer import GIVEN_OPERANDS, MASK_KINDS, SCRIPT_ROOM
from .writer_by_hand import EMPTY, WHOLE, made, with_words
from .writer_form import AMPLE, fine, refused

# Bytes of a script without pairs, commands and masks; of a mask command in it.
BARE, MASK_COMMAND = 64, 12
# The first of the counts among the parameters as given.
FIRST_COUNT = 4
# A stem, a hint mask, a counter mask and a finish, at 0, 3, 5 and 7; three mask bytes; 108 bytes as a script.
MIXED = made([STEM, 0, ONE, HINT_MASK, 1, COUNTER_MASK, 2, FINISH], [0x80, 0xC0, 0x01])


def some_bytes(count):
    """None of them is 0, and a byte differs from its neighbours."""
    return [1 + 7 * at % 255 for at in range(count)]


def padded_size(count):
    return count + -count % 4


def with_counts(*counts):
    return with_words(EMPTY, {FIRST_COUNT + number: count for number, count in enumerate(counts)})


def numbers():
    """The scale and the counts."""
    for given, size in [(EMPTY, 64), (WHOLE, 104), (MIXED, 108)]:
        for scale in [LOW, -ONE, -1, 0]:
            yield refused(given._replace(scale=scale), BAD_SCALE, 1)
        for scale in [1, 2, HIGH]:
            yield fine(given._replace(scale=scale), size)
    for number, place in enumerate(COUNTS):
        for count in [LOW, -7, -1, 8, 9, 256, 65537, HIGH]:
            counts = [0] * number + [count]
            yield refused(with_counts(*counts), BAD_BLUES, place)
        for count in [0, 1, 6, 7]:
            counts = [0] * number + [count]
            yield fine(with_counts(*counts), BARE + 8 * count)
    for (first, place), (second, _) in combinations(enumerate(COUNTS, FIRST_COUNT), 2):
        yield refused(with_words(MIXED, {first: 8, second: -1}), BAD_BLUES, place)
        yield refused(with_words(MIXED, {first: -1, second: 8}), BAD_BLUES, place)
    # Counts outside their range whose sum is in it, also after it wraps at 32 bits.
    yield refused(with_counts(8, -1), BAD_BLUES, 12)
    yield refused(with_counts(0, -7, 7), BAD_BLUES, 13)
    yield refused(with_counts(1, 1, 9, -9), BAD_BLUES, 14)
    yield refused(with_counts(7, 7, 7, -21), BAD_BLUES, 15)
    yield refused(with_counts(*[1 << 30] * 4), BAD_BLUES, 12)
    yield refused(with_counts(0, 0, LOW, LOW), BAD_BLUES, 14)
    # Counts in their range are fine in any mixture.
    for counts in [(1, 2, 3, 4), (7, 0, 0, 7), (0, 7, 7, 0), (4, 3, 2, 1), (7, 7, 7, 7)]:
        yield fine(with_counts(*counts), BARE + 8 * sum(counts))


def commands():
    """Every kind, whole and with operands cut off, and kinds that are none."""
    yield fine(EMPTY, BARE)
    for kind, count in GIVEN_OPERANDS.items():
        start = 1 if kind in MASK_KINDS else 0
        whole = 4 * (1 + count + start)
        yield fine(made([kind, *[0] * count]), BARE + whole)
        yield fine(made([LINE, 1, 2, kind, *[0] * count, FINISH]), BARE + 12 + whole + 4)
        for missing in range(1, count + 1):
            cut = [kind, *[0] * (count - missing)]
            yield refused(made(cut), BAD_COMMAND, 0)
            yield refused(made([CLOSE, MOVE, 1, 2, *cut]), BAD_COMMAND, 4)
            # Behind a mask command that has two words as given.
            yield refused(made([HINT_MASK, 3, *cut], some_bytes(3)), BAD_COMMAND, 2)
        if count:
            # Mask bytes are no operands.
            yield refused(made([kind, *[0] * (count - 1)], some_bytes(4)), BAD_COMMAND, 0)
    for kind in [0, 10, -1, HIGH, LOW]:
        yield refused(made([kind]), BAD_COMMAND, 0)
        yield refused(made([kind, 0, 0, 0, 0, 0, 0]), BAD_COMMAND, 0)
        yield refused(made([STEM, 1, 2, kind, FINISH]), BAD_COMMAND, 3)
        yield refused(made([COUNTER_MASK, 2, HINT_MASK, 0, kind], some_bytes(2)), BAD_COMMAND, 4)
        yield refused(made([FINISH, CLEAR, kind, 0, 0]), BAD_COMMAND, 2)
    # Kinds some of whose bits are those of a move, a mask or a finish.
    for kind in [5 + 256, 5 + 65536, 5 << 24, LOW + 5, -5, 2 + 256, 3 << 8, LOW + 2, -2, -3, 9 + 256, -9, 11, 16, 18]:
        yield refused(made([MOVE, 0, 0, kind, 0, 0]), BAD_COMMAND, 3)
    yield from words_of_all_kinds()


def words_of_all_kinds():
    """Words that are operands and look like kinds, words that are kinds, and the first of two faults."""
    for value in [LOW, -1, 0, 2, 3, 10, HIGH]:
        yield fine(made([STEM, value, value, CURVE, *[value] * 6, LINE, value, value]), BARE + 52)
    # A mask as a script has it: its start is taken for its length, and its length for a kind.
    yield refused(made([HINT_MASK, 0, 1], [0xFF]), BAD_COMMAND, 2)
    yield refused(made([HINT_MASK, 0, 0]), BAD_COMMAND, 2)
    yield refused(made([HINT_MASK, 0, 12, FINISH], some_bytes(12)), BAD_COMMAND, 2)
    yield fine(made([HINT_MASK, 0, CLEAR]), BARE + MASK_COMMAND + 4)
    # What commands mean is not looked at.
    yield fine(made([FINISH, FINISH, MOVE, 1, 2, CLOSE]), BARE + 24)
    yield fine(made([CLEAR, CLOSE, CLOSE, CLEAR]), BARE + 16)
    yield refused(made([0, 10]), BAD_COMMAND, 0)
    yield refused(made([CLOSE, 10, STEM, 1]), BAD_COMMAND, 1)
    yield refused(made([STEM, 1, 2, LINE]), BAD_COMMAND, 3)


def masks():
    """Lengths of masks against the bytes that are not yet taken."""
    for kind in MASK_KINDS:
        for count in [0, 1, 2, 3, 4, 5, 12, 13, 97, 301]:
            yield fine(made([kind, count], some_bytes(count)), BARE + MASK_COMMAND + padded_size(count))
            for more in [1, 3]:
                yield refused(made([kind, count + more], some_bytes(count)), BAD_MASK, 0, room=AMPLE + count)
        for length in [-1, -4, -13, LOW, LOW + 5, HIGH, 1 << 30, 65536, 261]:
            yield refused(made([kind, length]), BAD_MASK, 0)
            yield refused(made([kind, length], some_bytes(5)), BAD_MASK, 0)
            yield refused(made([kind, 2, CLOSE, kind, length, FINISH], some_bytes(5)), BAD_MASK, 3)
    yield from several_masks()


def several_masks():
    """Bytes are taken in turn, by hint masks and counter masks alike."""
    for lengths in [
        (1, 1), (0, 0), (0, 3), (3, 0), (0, 3, 0), (1, 2, 3), (3, 2, 1), (12, 13), (13, 0, 13), (5, 5, 5, 5),
        (1, 0, 0, 0), (100, 1, 200), (12, 12, 12, 12), (0, 1, 0, 1, 0, 1, 0),
    ]:
        for kinds in [(HINT_MASK, COUNTER_MASK), (COUNTER_MASK, HINT_MASK)]:
            words = [word for at, length in enumerate(lengths) for word in (kinds[at % 2], length)]
            size = BARE + MASK_COMMAND * len(lengths) + padded_size(sum(lengths))
            yield fine(made(words, some_bytes(sum(lengths))), size)
            # One byte fewer: the last mask that has bytes asks for one more than is left.
            if any(lengths):
                last = max(at for at, length in enumerate(lengths) if length)
                yield refused(made(words, some_bytes(sum(lengths) - 1)), BAD_MASK, 2 * last, room=AMPLE + sum(lengths))
    first, second = MASK_KINDS
    # A length below 0 gives no byte back, though the sum of all is right.
    yield refused(made([first, 3, second, -1], some_bytes(3)), BAD_MASK, 2)
    yield refused(made([first, 3, second, -1, first, 1], some_bytes(3)), BAD_MASK, 2)
    yield refused(made([first, -1, second, 4], some_bytes(3)), BAD_MASK, 0)
    # Sums that wrap at 32 bits.
    yield refused(made([first, 1, second, HIGH], some_bytes(1)), BAD_MASK, 2)
    yield refused(made([first, 2, second, HIGH, first, HIGH, second, 2], some_bytes(2)), BAD_MASK, 2)
    yield refused(made([first, 4, second, HIGH - 3], some_bytes(4)), BAD_MASK, 2)
    yield refused(made([first, 4, second, LOW, first, LOW], some_bytes(4)), BAD_MASK, 2)
    # None is left, and none is asked for; then one is.
    yield fine(made([first, 1, second, 0, first, 0], [0xFF]), BARE + 3 * MASK_COMMAND + 4)
    yield refused(made([first, 1, second, 0, first, 1], [0xFF]), BAD_MASK, 4)
    # The place counts operands of other kinds, and two words for a mask.
    far = [STEM, 0, 0, first, 1, CURVE, 1, 2, 3, 4, 5, 6, CLEAR, second]
    yield fine(made([*far, 1, FINISH], [1, 2]), BARE + 12 + MASK_COMMAND + 28 + 4 + MASK_COMMAND + 4 + 4, AMPLE + 32)
    yield refused(made([*far, 2, FINISH], [1, 2]), BAD_MASK, 13, AMPLE + 32)
    yield refused(made([*far, -1, FINISH], [1, 2]), BAD_MASK, 13, AMPLE + 32)
    yield refused(made([*far], [1, 2]), BAD_COMMAND, 13, AMPLE + 32)


def left_over():
    """Bytes that no mask takes; a fault in any command goes first."""
    for count in [1, 3, 4, 13]:
        yield refused(made([], some_bytes(count)), BAD_MASK, 0)
        yield refused(made([FINISH], some_bytes(count)), BAD_MASK, 1)
        yield refused(made([STEM, 1, 2, CLOSE], some_bytes(count)), BAD_MASK, 4)
        yield refused(made([HINT_MASK, 0, FINISH], some_bytes(count)), BAD_MASK, 3)
        yield refused(made([HINT_MASK, count - 1, FINISH], some_bytes(count)), BAD_MASK, 3)
        yield refused(made([HINT_MASK, 2, COUNTER_MASK, count, FINISH], some_bytes(count + 3)), BAD_MASK, 5)
        yield refused(made([HINT_MASK, 0, COUNTER_MASK, 0, STEM, 1, 2], some_bytes(count)), BAD_MASK, 7)
        # With a later fault.
        yield refused(made([HINT_MASK, 0, 10], some_bytes(count)), BAD_COMMAND, 2)
        yield refused(made([FINISH, LINE, 1], some_bytes(count)), BAD_COMMAND, 1)
        yield refused(made([HINT_MASK, 0, COUNTER_MASK, count + 1], some_bytes(count)), BAD_MASK, 2)
        yield refused(made([FINISH, FINISH, HINT_MASK, -1], some_bytes(count)), BAD_MASK, 2)
        # The bytes left over are taken into account before the room is.
        yield refused(made([FINISH], some_bytes(count)), BAD_MASK, 1, room=0)


# Faults as changes of what is given and of the room.


def scale(value):
    return lambda given, room: (given._replace(scale=value), room)


def param(at, value):
    return lambda given, room: (with_words(given, {at: value}), room)


def word(at, value):
    return lambda given, room: (given._replace(commands=[*given.commands[:at], value, *given.commands[at + 1 :]]), room)


def more_words(*words):
    return lambda given, room: (given._replace(commands=[*given.commands, *words]), room)


def more_bytes(*data):
    return lambda given, room: (given._replace(masks=given.masks + bytes(data)), room)


def short_room(value):
    return lambda given, room: (given, value)


# One fault of each sort in MIXED, in 02's order, its number and its place.
FAULTS = [
    (scale(0), BAD_SCALE, 1),
    (param(4, 8), BAD_BLUES, 12),
    (param(5, -1), BAD_BLUES, 13),
    (param(6, HIGH), BAD_BLUES, 14),
    (param(7, LOW), BAD_BLUES, 15),
    (word(0, 10), BAD_COMMAND, 0),
    (word(4, 50), BAD_MASK, 3),
    (word(6, -1), BAD_MASK, 5),
    (word(7, 0), BAD_COMMAND, 7),
    (more_words(COUNTER_MASK, 99), BAD_MASK, 8),
    (more_words(CURVE, 1, 2, 3), BAD_COMMAND, 8),
    (more_bytes(1, 2, 3, 4, 5), BAD_MASK, 8),
    (short_room(107), SCRIPT_ROOM, 0),
]


def two_faults():
    """Every fault alone, then every two of them: the first in 02's order wins."""
    room = AMPLE + 32
    yield fine(MIXED, 108)
    for fault, number, place in FAULTS:
        given, least = fault(MIXED, room)
        yield refused(given, number, place, least)
    for (first, number, place), (second, *_) in combinations(FAULTS, 2):
        given, least = second(*first(MIXED, room))
        yield refused(given, number, place, least)
