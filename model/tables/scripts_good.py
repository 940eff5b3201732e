"""Scripts without a fault, made by hand. Others are made from them by changes."""

from ..calls import CLEAR, CLOSE, COUNTER_MASK, CURVE, FINISH, HINT_MASK, LINE, MOVE, STEM
from ..numbers import LOW, ONE, bits
from ..script import HEADER_WORDS, OPERANDS, SCRIPT_VERSION, words_of
from . import fonts
from .fonts import PLAIN, font, in_bits, param_words
from .marked import WHOLE_SCRIPT


def command(kind, *operands):
    """A command in whole units or parts of one; the operands of a mask as they are."""
    return [kind, *(operands if kind in (HINT_MASK, COUNTER_MASK) else bits(*operands))]


def script_of(params, scale, *commands, masks=()):
    params = param_words(params)
    words = [word for parts in commands for word in command(*parts)]
    first = HEADER_WORDS + len(params)
    header = [SCRIPT_VERSION, scale, HEADER_WORDS, len(params), first, len(words), first + len(words), len(masks)]
    return [*header, *params, *words, *words_of(padded_bytes(masks))]


def padded_bytes(data):
    return bytes(data) + bytes(-len(data) % 4)


WHOLE = WHOLE_SCRIPT
# No commands and no mask bytes.
EMPTY = script_of(PLAIN, ONE)
# Every kind of command, every list of pairs, and five mask bytes, at 70 and 71.
LETTER = script_of(
    fonts.FAMILY,
    2100,
    (STEM, -3, 41), (STEM, 430, 485), (HINT_MASK, 0, 1), (COUNTER_MASK, 1, 2), (MOVE, 7, -2), (LINE, 9, 40.5),
    (CURVE, 10, 41, 20, 100.25, 30, 484), (HINT_MASK, 3, 2), (LINE, 31, 483), (CLOSE,), (CLEAR,), (STEM, 100, 180),
    (MOVE, 0, 140), (CLOSE,), (FINISH,), (FINISH,),
    masks=[0x80, 0xC0, 0x01, 0x40, 0xFF],
)
# Where the kinds of its commands stand.
LETTER_KINDS = [28, 31, 34, 37, 40, 43, 46, 53, 56, 59, 60, 61, 64, 67, 68, 69]
# Masks between points, a mask of all bytes and more, and one of none; 14 mask bytes.
MASKED = script_of(
    PLAIN,
    2048,
    (STEM, 16, 80), (STEM, 32, 96), (STEM, 300, 279), (MOVE, 0, 48), (HINT_MASK, 1, 1), (LINE, 32, 48),
    (HINT_MASK, 14, 0), (LINE, 64, 48), (COUNTER_MASK, 0, 1), (HINT_MASK, 0, 13), (LINE, 96, 48), (FINISH,),
    masks=[0x40, 0x80, *range(2, 14)],
)
# Lines that wait and that are dropped, moves that close, commands after finish; one mask byte.
PATHS = script_of(
    font([(-10, 0)]),
    ONE // 4,
    (LINE, 1, 2), (LINE, 3, 4), (FINISH,), (MOVE, 5, 6), (LINE, 7, 8), (LINE, 5, 6), (MOVE, 9, 10), (LINE, 1, 2),
    (CURVE, 1, 2, 3, 4, 5, 6), (LINE, 8, 8), (FINISH,), (MOVE, 1, 1), (CLOSE,), (FINISH,),
    masks=[0x80],
)
# Seven pairs in each list: the most words of parameters.
FULL = script_of(
    fonts.FULL, 2597, (STEM, -15, 30), (STEM, 200, 289), (MOVE, 1, -15), (LINE, 2, 285), (LINE, 3, 100), (FINISH,)
)
# Em-box hints.
BOX = script_of(
    fonts.EM_BOX, 3000, (STEM, -119, -60), (STEM, 820, 879), (MOVE, 0, -119), (MOVE, 0, 860), (FINISH,)
)
# Each kind that has operands, last. Every mask has no bytes.
LAST = {
    kind: script_of(PLAIN, ONE, (FINISH,), (kind, *[0] * count)) for kind, count in OPERANDS.items() if count
}
# A hint mask, a line, a counter mask and a close, at 28, 31, 34 and 37; five mask bytes.
FAULTY = script_of(
    fonts.FAMILY, 2100, (HINT_MASK, 0, 1), (LINE, 1, 1), (COUNTER_MASK, 1, 2), (CLOSE,), masks=[1, 2, 3, 4, 5]
)
GOOD = [WHOLE, EMPTY, LETTER, MASKED, PATHS, FULL, BOX, *LAST.values(), FAULTY]
# Scripts that tell a rule from a reading of it to which all other rows are blind; an outside reader of
# docs/RULES.md found them. In turn: a distance of 0 ends the search (Z10), the earlier of two at one distance stays
# (Z10), boost is at most 0x7FFF (Z13), the sums of the room up and of the room down wrap (M17, M18), and a stem that
# is ignored gets no number (S1).
READINGS = [
    [
        1, 1049, 8, 18, 26, 10, 36, 0, 2597, 458752, 65536, 0, 2, 0, 3, 0, -1310720, -655360, 6553600, 7536640, 0, 0,
        6553600, 6553600, -2140930048, 0, 1, 2621440, 6881280, 5, 0, 6553600, 6, 0, 7536640, 9,
    ],
    [
        1, 1049, 8, 18, 26, 10, 36, 0, 6000, 458752, 65536, 0, 2, 0, 3, 0, -1310720, -655360, 0, 983040, 0, 0,
        -2082114, -1426754, 2082114, 2737474, 1, -3932160, 589824, 5, 0, 0, 6, 0, 983040, 9,
    ],
    [
        1, 700, 8, 18, 26, 10, 36, 0, 10000, 458752, 65536, 0, 2, 0, 3, 0, -1310720, -655360, 0, 983040, 0, 0, 0, 0,
        LOW, 0, 1, -3932160, 0, 5, 0, 0, 6, 0, 983040, 9,
    ],
    [
        1, 65536, 8, 8, 16, 19, 35, 0, 2597, 458752, 65536, 0, 0, 0, 0, 0, 1, 2147277226, 2147448089, 1, 2147455889,
        2147481027, 5, 0, 2147277226, 5, 0, 2147448089, 5, 0, 2147455889, 5, 0, 2147481027, 9,
    ],
    [
        1, 262144, 8, 8, 16, 19, 35, 0, 2597, 458752, 65536, 0, 0, 0, 0, 0, 1, -536931007, 536873033, 1, 536877466,
        2147390588, 5, 0, -536931007, 5, 0, 536873033, 5, 0, 536877466, 5, 0, 2147390588, 9,
    ],
    [
        1, 2048, 8, 8, 16, 22, 38, 1, 2597, 458752, 65536, 0, 0, 0, 0, 0, 1, 1048576, 5242880, 5, 0, 0, 1, 6553600,
        7864320, 2, 0, 1, 1, 13107200, 17321504, 5, 0, 13107200, 6, 0, 17321504, 9, 192,
    ],
]


def looking(family, others=()):
    """A point on each flat edge, 0 of a bottom zone and 500 of a top zone, where a pixel has some 25 units."""
    params = in_bits([bits(-10, 0), bits(500, 512)], [], family, others)
    return script_of(params, 2596, (STEM, 0, 100), (STEM, 400, 500), (MOVE, 0, 0), (LINE, 0, 500), (FINISH,))


# Request 4: family blues and family other blues, and the heights of both points on the device, in pixels.
LOOKS = [
    # The first family blue alone: its top moves the bottom zone, whatever its height is; its bottom does not, nor
    # does the second. The top zone looks at neither end of it.
    (looking([bits(-30, -20)]), -1, 20),
    (looking([bits(40, 20)]), 1, 20),
    (looking([bits(20, 300)]), 0, 20),
    (looking([bits(0, 300), bits(800, 20)]), 0, 20),
    (looking([bits(520, 520), bits(800, 300)]), 0, 20),
    # A bit less than a pixel away, and a pixel.
    (looking([(0, 1654455)]), 1, 20),
    (looking([(0, 1654456)]), 0, 20),
    # After family other blues: nearer, as near, and not as near.
    (looking([bits(0, -14)], [bits(0, 20)]), -1, 20),
    (looking([bits(0, -20)], [bits(0, 20)]), 1, 20),
    (looking([bits(0, 20)], [bits(0, -14)]), -1, 20),
    (looking([bits(0, -20)], [bits(0, 300)]), -1, 20),
    # After a distance of 0, which ended the search: at 20, and where the distance wraps to -32768.0.
    (looking([bits(0, 20)], [bits(0, 0)]), 0, 20),
    (looking([(0, LOW)], [bits(0, 0), (0, LOW)]), -1298, 20),
]
