"""Tables of numbers, masks, edges, zones and captures.

Cases are chosen by hand; random numbers, masks and used stems among them come from the seeds below.
What is expected comes from the model: numbers.py, stems.py and zones.py.
"""

import random
from dataclasses import replace
from itertools import product as combined

from ..numbers import (
    HALF, HIGH, LOW, ONE, bits, fraction, half, midpoint, output, product, product_quotient, quotient, rounded, wrapped
)
from ..stems import MASK_BYTES, MAX_HINTS, Stem, edges_of, mask_bytes, mask_of, without
from ..zones import capture, state_of
from .fonts import EM_BOX_BLUES, LETTER_BLUES, font, ghost_bottom, ghost_top, in_bits, param_words, seven
from .form import row

NUMBERS_SEED, STEMS_SEED = 1616, 9612


# Numbers. A row has three operands, with 0 for one that is not taken, and the expected bits.


EDGES = [LOW, -ONE, -1, 0, 1, ONE, HIGH]
SIZES = [8, 17, 24, 31]
SINGLES = [LOW, LOW + 1, -ONE - 1, -ONE, -HALF - 1, -HALF, -1025, -1, 0, 1, 1023, 1024]
SINGLES += [HALF - 1, HALF, ONE - 1, 2**30 - 1, 2**30, HIGH - HALF, HIGH - HALF + 1, HIGH]
ORDERED = [(LOW, LOW), (LOW, LOW + 1), (LOW, HIGH), (HIGH, LOW), (HIGH - 1, HIGH), (HIGH, HIGH)]
ORDERED += [(-1, -1), (-1, 0), (0, -1), (0, 0), (1, 0), (-1, 1)]
CONSTANTS = [0, ONE, HALF, 1, HIGH]


def signed(sizes):
    return [sign * size for size in sizes for sign in (1, -1)]


def near_halves(half):
    """Odd numbers by a number, which gives exact halves, and its neighbours, in all signs."""
    return list(combined(signed([1, 3, ONE - 1]), signed([half - 1, half, half + 1])))


def drawn(size):
    """A random number of at most so many bits and its sign."""
    return random.randint(-(2**size), 2**size - 1)


def drawn_pairs(times):
    """Random pairs, so many for every two sizes."""
    return [(drawn(m), drawn(n)) for m, n in combined(SIZES, repeat=2) for _ in range(times)]


def with_divisors():
    """Operands of a·b/c, with c above 0."""
    extremes = [LOW, -1, 0, 1, HIGH]
    rows = list(combined(extremes, extremes, [1, ONE, HIGH]))
    rows += [(a, b, 20) for a, b in near_halves(10)]
    for a, b in drawn_pairs(2):
        rows.append((a, b, random.randint(1, 2 ** random.choice(SIZES) - 1)))
    return rows


def answers(operands, expected):
    return [row((*given, 0, 0)[:3] + (expected(*given),)) for given in operands]


def numbers():
    """Operations of two and three numbers, of one, comparisons, and constants."""
    random.seed(NUMBERS_SEED)
    ends = list(combined(EDGES, repeat=2))
    yield answers(ends + near_halves(HALF) + drawn_pairs(3), product)
    yield answers(ends + near_halves(2 * ONE) + drawn_pairs(3), quotient)
    yield answers(with_divisors(), product_quotient)

    couples = list(combined([LOW, -1, 0, HIGH], repeat=2)) + [(drawn(31), drawn(31)) for _ in range(4)]
    for expected in [lambda a, b: wrapped(a + b), lambda a, b: wrapped(a - b), midpoint]:
        yield answers(couples, expected)

    singles = [(a,) for a in SINGLES]
    for expected in [lambda a: wrapped(-a), lambda a: wrapped(abs(a)), lambda a: wrapped(2 * a)]:
        yield answers(singles, expected)
    for expected in [rounded, fraction, half, output]:
        yield answers(singles, expected)

    for expected in [lambda a, b: int(a < b), lambda a, b: int(a <= b), lambda a, b: int(a == b), min, max]:
        yield answers(ORDERED, expected)
    yield answers([(number,) for number in range(len(CONSTANTS))], CONSTANTS.__getitem__)


# Masks and edges.


def drawn_bytes(count):
    return [random.randrange(256) for _ in range(count)]


def mask_row(given, bit):
    """A count and so many bytes, the mask's 12; a bit, 1 if it is active, the 12 without it."""
    mask = mask_of(given)
    return row([len(given), *given, *mask_bytes(mask), bit, mask[bit], *mask_bytes(without(mask, bit))])


def same_row(one, other):
    """Two counts, each with its bytes, and 1 if the masks are the same."""
    return row([len(one), *one, len(other), *other, int(mask_of(one) == mask_of(other))])


def edges_row(stem, scale, number):
    """A stem, its number and a scale; of the bottom and the top edge kind, lock and heights."""
    numbers = [stem.min, stem.max, int(stem.is_used), stem.ds_min, stem.ds_max, number, scale]
    for edge in edges_of(stem, scale, number):
        numbers += [edge.kind, int(edge.locked), edge.height, edge.device]
    return row(numbers)


def masks():
    """Bytes, and a bit."""
    yield [], 0
    yield [0x80], 0
    yield [0x80], 1
    yield [0x01], 7
    yield [0xFF, 0x7F], 8
    yield [0, 0x80], 8
    yield drawn_bytes(11), 87
    yield [255] * 11, 88
    yield drawn_bytes(11) + [0x01], 95
    yield drawn_bytes(11) + [0xFE], 95
    yield [0] * (MASK_BYTES + 1), 0
    yield drawn_bytes(MASK_BYTES + 1), 95


def masks_to_compare():
    yield [], [0] * MASK_BYTES
    yield [0x80], [0x80, 0]
    yield [0x80], [0x40]
    yield [255] * MASK_BYTES, [0] * (MASK_BYTES + 1)
    yield [0] * (MASK_BYTES + 1), drawn_bytes(MASK_BYTES + 1)
    yield [255] * 11, [255] * MASK_BYTES
    yield [255] * 11 + [0xFE], [255] * MASK_BYTES


def stems():
    """Ends in 16.16: by width, then widths that wrap, then used stems."""
    yield Stem(*bits(16, 80))
    for width in bits(-21, -20):
        for more in [-1, 0, 1]:
            yield Stem(100 * ONE, 100 * ONE + width + more)
    yield Stem(*bits(100, 78))
    for width in [-1, 0, 1]:
        yield Stem(-5 * ONE, -5 * ONE + width)
    for low, width in [(LOW, -1), (HIGH, 1), (0, LOW), (LOW + 5, -21 * ONE), (LOW + 5, -20 * ONE)]:
        yield Stem(low, wrapped(low + width))
    for width in [64, 0, -22, -21, -20]:
        yield Stem(*bits(100, 100 + width), True, drawn(31), drawn(31))


def masks_and_edges():
    random.seed(STEMS_SEED)
    yield [mask_row(*case) for case in masks()]
    yield [same_row(*case) for case in masks_to_compare()]
    scales = [2048, 2048, 70000, HIGH]
    yield [edges_row(stem, scales[at % 4], MAX_HINTS - 1 - at) for at, stem in enumerate(stems())]


# Zones and captures. A row starts with the scale and the parameters.


def state_row(params, scale):
    """Em box, suppression, boost, blue scale; the count of zones, and five numbers for each."""
    state = state_of(params, scale)
    numbers = [scale, *param_words(params)]
    numbers += [int(state.em_box), int(state.suppress), state.boost, state.blue_scale, len(state.zones)]
    for zone in state.zones:
        numbers += [int(zone.is_bottom), zone.bottom, zone.top, zone.flat, zone.device_flat]
    return row(numbers)


def captures_row(params, scale, stems):
    """A count of stems; of each its ends, 1 if captured, lock and device height of both edges."""
    state = state_of(params, scale)
    numbers = [scale, *param_words(params), len(stems)]
    for low, high in stems:
        captured, bottom, top = capture(state, *edges_of(Stem(low, high), scale))
        numbers += [low, high, int(captured), int(bottom.locked), bottom.device, int(top.locked), top.device]
    return row(numbers)


def lists():
    """Every kind of zone list."""
    yield font(), 2048
    yield font(group=2), 4096
    yield font([(-10, 0)]), 1024
    yield font([(-10, 0), (500, 512), (700, 716)]), 1024
    yield font(others=[(-220, -210), (-100, 0)]), 600
    yield font(others=[(-200, -100)], group=1, scale=9000), 1024
    yield font(EM_BOX_BLUES, others=[(-200, -100)], group=1, scale=9000), 1024
    yield font([(-122, -123), (890, 881)], group=1), 1024
    yield font(EM_BOX_BLUES, group=2), 1024
    yield font([(-122, -120), (881, 890)], group=1), 1024
    yield font([(-122, -121), (880, 890)], group=1), 1024
    yield font(EM_BOX_BLUES[:1], group=1), 1024
    yield font(EM_BOX_BLUES + [(900, 910)], group=1), 1024
    full = [seven(rise, height=9 + rise) for rise in range(4)]
    yield font(*full[:3], full[3][::-1]), 4096
    yield font([(0, -1), (-10, 0), (5, 4), (500, 512)], [(-40, -50), *[(-300 + n, -290) for n in range(5)]]), 1024
    yield in_bits([(LOW, HIGH), (HIGH, LOW), (LOW, -1), (LOW, 0)]), 1024


def families():
    """Family lists, at scales where a distance counts under 64.0, then where 1.0/scale wraps."""
    yield font([(-10, 0)], family=[(-30, -20)]), 1024
    ties = [(9, 2), (9, 1), (9, -1)]
    yield font([(-10, 0), (500, 512)], family=[(500, 0), (502, 0), (499, 0), (501, 0)], family_others=ties), 1024
    edge = 64 * ONE
    tops = [(0, edge - 1), (0, -edge), (0, edge)]
    yield in_bits([(-ONE, 0), (ONE, 2 * ONE)], [(-ONE, 1)], [(ONE, 0), (ONE + edge, 0)], tops), 1024
    yield in_bits([(0, 0)], [], [], [(0, 0), (0, LOW)]), 1024
    yield in_bits([(0, 0), (7, 9)], [], [(0, 0), (8, 0), (wrapped(LOW + 7), 0), (7, 0)], [(0, LOW), (0, 0)]), 1024
    for scale in [1, 2, 3]:
        yield in_bits([(-5, 0), (7, 9)], [], [(0, 0), (7, 0)], [(0, 0), (0, LOW), (0, 3)]), scale
    yield from first_of_the_family(ties, tops)


def first_of_the_family(ties, tops):
    """The first family blue, for a bottom zone that is flat at 0, another one and a top zone."""
    edge = 64 * ONE
    # Too far, so that ties and limits are those of the family other blues.
    yield font([(-10, 0), (500, 512)], family=[(0, 300), (502, 0)], family_others=ties), 1024
    yield in_bits([(-ONE, 0)], [(-ONE, 1)], [(0, 2 * edge)], tops), 1024
    # Its top, with its bottom above it, and without: nothing else of it counts, and not the second one.
    for first in [(5, 1), (0, 63), (0, 64), (0, -64), (1, 300)]:
        yield font([(-10, 0), (500, 512)], [(-9, 2)], [first, (90, 3)]), 1024
    yield font([(-10, 0), (500, 512)], family=[(501, 501), (800, 1)]), 1024
    # Nearer than the best so far, as near, and a bit less near.
    for top in [ONE - 1, ONE, -ONE, 1 - ONE, -ONE - 1]:
        yield in_bits([(-ONE, 0)], [], [(0, top)], [(0, 3 * ONE), (0, -ONE), (0, ONE)]), 1024
    # After a distance of 0, where nothing but a distance that wraps is nearer; after one that wraps, nothing is.
    for top in [0, 1, LOW]:
        yield in_bits([(0, 0)], [], [(0, top)], [(0, 9), (0, 0), (0, LOW)]), 1024
    yield in_bits([(0, 0)], [], [(0, 0)], [(0, LOW), (0, 0)]), 1024
    # A limit of 0, of -2^31 bits, and of 2^32/3 bits, wrapped.
    for scale in [1, 2, 3]:
        yield in_bits([(0, 0)], [], [(0, LOW)], [(0, 9)]), scale


def scales():
    """Blue scales, suppression and boost."""
    for scale in [1, 432, 433, 2596, 2597]:
        yield font(), scale
    yield font([(-100, 0)]), 600
    yield font([(-20, 0)]), 600
    yield font([(-10, 0)], [(-400, -300)], scale=655), 1024
    yield font([(-10, 0)], [(-400, -300)], scale=656), 300
    yield in_bits([(5, 6)]), 1
    yield in_bits([(5, 7)]), 1
    yield in_bits([(5, 8)], scale=HIGH), 70000
    yield in_bits([(LOW, LOW), (HIGH, HIGH)], scale=HIGH), ONE
    yield font([(0, 0)], scale=-1), 1


def one_bit_around(*heights):
    """Whole units, and a bit less and more."""
    return [height + more for height in bits(*heights) for more in (-1, 0, 1)]


def captures():
    """Parameters and a scale with stems, as pairs of ends."""
    far = 300 * ONE
    bottoms = [(low, far) for low in one_bit_around(-11, 1)]
    tops = [(far, high) for high in one_bit_around(479, 493)]
    ghosts = [ghost(height) for ghost in (ghost_bottom, ghost_top) for height in bits(-5, 485)]
    yield font(LETTER_BLUES), 1024, bottoms + tops + ghosts
    under = [(low, far) for low in one_bit_around(-7)] + [(0, far)]
    over = [(far, high) for high in one_bit_around(487)] + [bits(300, 480)]
    yield font(LETTER_BLUES), 4096, under + over + ghosts
    yield font([(-40, 0), (480, 520)], scale=1000), 6554, [bits(-40, 300), bits(300, 520)]
    yield font(LETTER_BLUES, family=[(0, 0), (483, 0)], family_others=[(0, 4)]), 4096, under + over
    several = [bits(-4, 485), bits(-30, 485), bits(-30, 300), bits(300, 488)]
    yield font(LETTER_BLUES + [(485, 500)], [(-40, -20), (-35, -25), (-10, 0)]), 1024, several
    yield font(LETTER_BLUES, group=1, fuzz=-2), 1024, [(low, far) for low in one_bit_around(-8, -2)]
    yield font(LETTER_BLUES, fuzz=-6), 1024, [bits(-5, 300)]
    yield font(group=1), 1024, [(0, far)]
    yield from captures_that_wrap()


def captures_that_wrap():
    """Depth and height in a zone, flat edges less or plus 1.0, an end of a zone, a moved edge."""
    wide = (-(2**30), 2**30 - 1)
    params = replace(in_bits([(0, 0), wide], [wide], shift=0), blue_fuzz=2**30)
    yield params, 70000, [ghost_bottom(LOW), (HIGH - ONE, HIGH), (HIGH, LOW)]
    yield replace(params, blue_fuzz=2**30 + 1), 70000, [(HIGH - ONE, HIGH)]
    high = HIGH - ONE + 1
    params = in_bits([(high - 10 * ONE, HIGH), (high, HIGH)], shift=0, fuzz=0)
    yield params, ONE, [(high - 5 * ONE, high), (0, high)]
    yield in_bits([(0, 0)], scale=HIGH), 2 * ONE, [(-HALF, 2**30 - 1)]


def zones_and_captures():
    for cases in [lists, families, scales]:
        yield [state_row(*case) for case in cases()]
    yield [captures_row(*case) for case in captures()]


def tables():
    return [*numbers(), *masks_and_edges(), *zones_and_captures()]
