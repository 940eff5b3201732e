"""What scripts are written from, made by hand, and a table all of whose answers are worked by hand."""

from ..calls import BAD_BLUES, BAD_COMMAND, BAD_MASK, BAD_SCALE, OK
from ..numbers import HIGH, LOW, ONE
from ..writer import PARAM_WORDS, SCRIPT_ROOM, Given
from .form import packed
from .marked import WHOLE_SCRIPT
from .writer_form import Writing, refused

# The numbers that a font has which gives none, and no pairs.
PLAIN = [2597, 458752, 65536, 0, 0, 0, 0, 0]


def made(commands=(), masks=(), scale=ONE, params=PLAIN):
    return Given(scale, list(params), list(commands), bytes(masks))


def with_words(given, changes):
    """The same with other parameters, by their places among the parameters."""
    params = [*given.params, *[0] * (PARAM_WORDS - len(given.params))]
    for at, value in changes.items():
        params[at] = value
    return given._replace(params=params)


def worked(given, room, *script):
    """A case in which these words are written."""
    return Writing(given, room, (OK, 0, 4 * len(script), packed(script)))


EMPTY = made()
# 01's whole case.
WHOLE = made([5, 655360, 1310720, 6, 1966080, 1310720, 6, 655360, 1310720, 9], scale=32768)
# A pair in the first list and two in the third, each list at its place. Words stand past the counts, and 7 in the
# second and the fourth list.
PAIRED = [1, 2, 3, 4, 1, 0, 2, 0]
PAIRED += [-10, -20, 71, 72, 7, 7, 7, 7, 7, 7, 7, 7, 7, 7]
PAIRED += [7] * 14
PAIRED += [30, 40, 50, 60, 73, 7, 7, 7, 7, 7, 7, 7, 7, 7]
PAIRED += [7] * 14


def by_hand():
    """Numbers, places and every word that is written."""
    # No parameters, no commands and no mask bytes: all that is missing is 0.
    yield worked(made(params=[]), 64, 1, ONE, 8, 8, 16, 0, 16, 0, 0, 0, 0, 0, 0, 0, 0, 0)
    yield worked(WHOLE, 104, *WHOLE_SCRIPT)
    # The rest of the buffer stands.
    yield worked(WHOLE, 111, *WHOLE_SCRIPT)
    # Masks of one byte and of two: a stem, both masks, a finish. 0x80 0xC0 0x01 and a zero are the word 114816.
    yield worked(
        made([1, 0, 65536, 2, 1, 3, 2, 9], [0x80, 0xC0, 0x01]), 115,
        1, 65536, 8, 8, 16, 10, 26, 3, *PLAIN, 1, 0, 65536, 2, 0, 1, 3, 1, 2, 9, 114816,
    )
    # A mask of no bytes, and one of one byte: both start at 0.
    yield worked(made([2, 0, 2, 1], [0xFF]), 92, 1, ONE, 8, 8, 16, 6, 22, 1, *PLAIN, 2, 0, 0, 2, 0, 1, 255)
    # A mask of one byte, and one of none: the second starts at 1, behind all bytes.
    yield worked(made([3, 1, 2, 0], [0xFF]), 93, 1, ONE, 8, 8, 16, 6, 22, 1, *PLAIN, 3, 0, 1, 2, 1, 0, 255)
    # Lists behind one another, without what stands past their counts.
    yield worked(
        made(params=PAIRED, scale=1), 88, 1, 1, 8, 14, 22, 0, 22, 0, 1, 2, 3, 4, 1, 0, 2, 0, -10, -20, 30, 40, 50, 60
    )
    # Every kind; masks of 4 and of 13 bytes. Bytes are the least first: 4 to 7 are the word 117835012.
    yield worked(
        made(
            [1, LOW, HIGH, 2, 4, 4, 5, -1, -2, 6, 3, 4, 3, 13, 7, 1, 2, 3, 4, 5, 6, 8, 9, 9], range(17), scale=HIGH,
            params=[-1, LOW, HIGH, -2],
        ), 192,
        1, HIGH, 8, 8, 16, 26, 42, 17, -1, LOW, HIGH, -2, 0, 0, 0, 0, 1, LOW, HIGH, 2, 0, 4, 4, 5, -1, -2, 6, 3, 4, 3,
        4, 13, 7, 1, 2, 3, 4, 5, 6, 8, 9, 9, 50462976, 117835012, 185207048, 252579084, 16,
    )
    yield refused(made(scale=0), BAD_SCALE, 1)
    # The third count is one too many.
    yield refused(made(params=[1, 2, 3, 4, 7, 0, 8, 0]), BAD_BLUES, 14)
    # There is no kind 10. A mask before it has two words as given.
    yield refused(made([2, 1, 10], [0xFF]), BAD_COMMAND, 2)
    # A curve lacks its last operand.
    yield refused(made([9, 7, 1, 2, 3, 4, 5]), BAD_COMMAND, 1)
    # A mask command lacks its length.
    yield refused(made([2, 1, 3], [0xFF]), BAD_COMMAND, 2)
    # Two bytes are asked for, and there is one.
    yield refused(made([4, 2, 2], [0xFF]), BAD_MASK, 1)
    # One byte is left over behind three words.
    yield refused(made([4, 2, 1], [0xFF, 0xFF]), BAD_MASK, 3)
    # One byte is missing; the second script has 92 bytes with its padding, and 89 without.
    yield refused(WHOLE, SCRIPT_ROOM, 0, room=103)
    yield refused(made([2, 0, 2, 1], [0xFF]), SCRIPT_ROOM, 0, room=91)
