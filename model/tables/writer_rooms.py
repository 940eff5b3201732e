"""Rooms and sizes of scripts that are written, and parameters.

Numbers, places and sizes stand by hand beside the cases. The bytes come from the model.
"""

from ..calls import CLOSE, COUNTER_MASK, FINISH, HINT_MASK, LINE, STEM
from ..numbers import HIGH, LOW, ONE
from ..script import MOST_BYTES
from ..writer import LIST_WORDS, PARAM_WORDS, SCRIPT_ROOM
from ..zones import MOST_PAIRS
from .writer_by_hand import EMPTY, PAIRED, WHOLE, made
from .writer_form import HELD_BYTES, HELD_PARAMS, fine, refused
from .writer_refused import BARE, MASK_COMMAND, MIXED, some_bytes

# Every word of the parameters is another, none of them 0, and the counts are the most.
FULL = [-3, LOW, HIGH, 9, *[MOST_PAIRS] * 4, *[(-1) ** at * 1000003 * at for at in range(1, PARAM_WORDS - 7)]]
FULL_SIZE = BARE + 4 * 4 * LIST_WORDS


def rooms():
    """Each script in its own size of room, in more, and in less, by few bytes and by all."""
    sizes = [
        (EMPTY, 64), (WHOLE, 104), (MIXED, 108),
        # One, two, three and four mask bytes. Without padding, or without starts, the first three would be shorter.
        (made([HINT_MASK, 1], some_bytes(1)), 80), (made([COUNTER_MASK, 2], some_bytes(2)), 80),
        (made([HINT_MASK, 1, COUNTER_MASK, 2], some_bytes(3)), 92), (made([HINT_MASK, 4], some_bytes(4)), 80),
        # Five bytes, and three masks of none.
        (made([HINT_MASK, 0, HINT_MASK, 5, COUNTER_MASK, 0, COUNTER_MASK, 0], some_bytes(5)), 120),
        # Three pairs.
        (made(params=PAIRED), 88),
    ]
    for given, size in sizes:
        for room in [0, 32, size - 12, *range(size - 4, size)]:
            yield refused(given, SCRIPT_ROOM, 0, room)
        for room in [*range(size, size + 5), size + 7, size + 37]:
            yield fine(given, size, room)
    full = made([FINISH], params=FULL)
    for room in [0, BARE + 4, FULL_SIZE, FULL_SIZE + 3]:
        yield refused(full, SCRIPT_ROOM, 0, room)
    for room in [FULL_SIZE + 4, FULL_SIZE + 5]:
        yield fine(full, FULL_SIZE + 4, room)


def sizes():
    """The most bytes of a script, and more."""
    words = (MOST_BYTES - BARE) // 4
    masks = MOST_BYTES - BARE - MASK_COMMAND
    starts = words // 3
    # Command words alone.
    yield fine(made([CLOSE] * (words - 1) + [FINISH]), MOST_BYTES)
    yield refused(made([CLOSE] * words + [FINISH]), SCRIPT_ROOM, 0, HELD_BYTES)
    # One mask: two bytes of padding end the script, and one byte takes another word.
    yield fine(made([HINT_MASK, masks - 2], some_bytes(masks - 2)), MOST_BYTES, MOST_BYTES + 5)
    yield refused(made([COUNTER_MASK, masks + 1], some_bytes(masks + 1)), SCRIPT_ROOM, 0, MOST_BYTES + 4)
    # Masks of no bytes, two words each as given and three in the script. One too many; then one byte of room too few.
    yield refused(made([HINT_MASK, 0] * (starts + 1)), SCRIPT_ROOM, 0, HELD_BYTES)
    yield refused(made([HINT_MASK, 0] * starts), SCRIPT_ROOM, 0, MOST_BYTES - 1)


def parameters():
    """Lists of parameters of any length, and pairs past their counts."""
    # Numbers and counts that are missing are 0.
    for count in range(9):
        yield fine(made([STEM, 1, 2], params=[-9, 8, LOW, HIGH, 0, 0, 0, 0][:count]), BARE + 12)
    # Pairs that are missing are 0; half of a pair may be.
    for count in range(5, 13):
        yield fine(made([FINISH], params=[1, 2, 3, 4, 2, 0, 0, 0, -5, 6, -7, 8][:count]), BARE + 16 + 4)
    for number in range(4):
        yield fine(made(params=[1, 2, 3, 4, *[0] * number, 3]), BARE + 24)
    for count in [8, 9, 10, 21, 22, 23, 35, 36, 37, 49, 50, 51, 62, 63, 64]:
        yield fine(made([FINISH], params=FULL[:count]), FULL_SIZE + 4)
    # Words past the 64th are not read.
    for value in [0, 8, -1, HIGH]:
        for count in [PARAM_WORDS + 1, PARAM_WORDS + 2, HELD_PARAMS]:
            yield fine(made([LINE, 3, 4], params=[*FULL, *[value] * (count - PARAM_WORDS)]), FULL_SIZE + 12)
            yield fine(made(params=[*PAIRED, *[value] * (count - PARAM_WORDS)]), BARE + 24)
    # Each list with each count, and the rest of it not zero; in the other lists no pairs, or all.
    for number in range(4):
        for count, others in [*((count, 0) for count in range(MOST_PAIRS + 1)), (0, MOST_PAIRS), (3, MOST_PAIRS)]:
            counts = [others] * number + [count] + [others] * (3 - number)
            yield fine(made(params=[*FULL[:4], *counts, *FULL[8:]], scale=7), BARE + 8 * sum(counts))
    # Words at the ends of the range in every place of a pair.
    for value in [LOW, -1, 0, 1, HIGH]:
        yield fine(made(params=[*[value] * 4, 1, 2, 3, 1, *[value] * 56], scale=ONE), BARE + 56)
