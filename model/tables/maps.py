"""Tables of maps and of their building.

Cases are chosen by hand, but for crowded stems, which come from the seed below. What is expected
comes from the model's hintmap.py; why stems drop is written by hand too, and compared.
"""

import random
from dataclasses import replace

from ..hintmap import (
    ABOVE, BELOW, EQUAL_HEIGHT, INSIDE, REACHES, TOP_UNDER_BOTTOM, HintMap, built_map, initial_map, insert, mapped
)
from ..numbers import HALF, HIGH, LOW, ONE, bits
from ..stems import Stem, edges_of, mask_of
from ..zones import state_of
from .fonts import EM_BOX, LETTER, PLAIN, font, ghost_bottom, ghost_top, in_bits, param_words, units
from .form import agree, row

SEED = 96


def edge_numbers(hintmap):
    """A count of edges; of each kind, lock, synthetic, number, height, device height and scale."""
    numbers = [len(hintmap.edges)]
    for edge in hintmap.edges:
        numbers += [edge.kind, int(edge.locked), int(edge.synthetic), edge.number]
        numbers += [edge.height, edge.device, edge.scale]
    return numbers


def height_numbers(hintmap, heights):
    return [len(heights)] + [number for height in heights for number in (height, mapped(hintmap, height))]


# Maps, edge by edge.


def around(hintmap):
    """Heights below the edges, on the first three, between the first four, and above all."""
    heights = [edge.height for edge in hintmap.edges]
    between = [(low + high) // 2 for low, high in zip(heights[:3], heights[1:])]
    return sorted({heights[0] - 3 * ONE - 1, *heights[:3], *between, heights[-1] + 5 * ONE + 1})


def free(low, high):
    return Stem(*bits(low, high))


def ghost(height):
    return Stem(*ghost_bottom(height * ONE))


def locked(stem, bottom, top, more=0):
    """A used stem with its device heights in whole pixels, and some bits more."""
    return replace(stem, is_used=True, ds_min=bottom * ONE + more, ds_max=top * ONE + more)


def stem_numbers(stems):
    numbers = [len(stems)]
    for stem in stems:
        numbers += [stem.min, stem.max, int(stem.is_used), stem.ds_min, stem.ds_max]
    return numbers


def map_of(scale, stems, initial=None):
    """The map of stems put in one by one, and why some are dropped."""
    hintmap = HintMap(scale)
    said = [insert(hintmap, edges_of(stem, scale, number), initial) for number, stem in enumerate(stems)]
    return hintmap, [why for why in said if why]


def map_row(scale, given, first, then, reasons):
    """A scale, 1 if the initial map is given, the stems of that map and the map; edges, heights."""
    initial, _ = map_of(scale, first)
    hintmap, said = map_of(scale, then, initial if given else None)
    agree(reasons, said, then)
    numbers = [scale, int(given), *stem_numbers(first), *stem_numbers(then)]
    return row(numbers + edge_numbers(hintmap) + height_numbers(hintmap, around(hintmap)))


def maps():
    """A scale, whether the initial map is given, its stems, the map's, why some of these drop."""
    over = Stem(*ghost_top(200 * ONE))
    touching = Stem(50 * ONE, 100 * ONE - 1)
    stems = [free(100, 200), free(100, 150), over, ghost(150), free(50, 100), touching, Stem(LOW, HIGH)]
    yield ONE, False, [], stems, [EQUAL_HEIGHT, EQUAL_HEIGHT, INSIDE, REACHES, TOP_UNDER_BOTTOM]
    stems = [Stem(HIGH, LOW), free(300, 300), ghost(300), free(250, 300), ghost(290), free(300, 301)]
    yield 2048, False, [], stems, [TOP_UNDER_BOTTOM, EQUAL_HEIGHT, REACHES, EQUAL_HEIGHT]
    stems = [locked(free(100, 200), 100, 200), locked(ghost(300), 200, 0, -1), locked(ghost(300), 200, 0)]
    stems += [locked(ghost(50), 100, 0, 1), locked(ghost(50), 100, 0)]
    stems += [locked(free(10, 20), 0, 101), locked(free(10, 20), 101, 0)]
    stems += [locked(free(400, 410), 199, 300), locked(free(400, 410), 300, 199)]
    yield ONE, False, [], stems, [BELOW, ABOVE, ABOVE, ABOVE, BELOW]
    first = [locked(free(0, 100), 10, 120), locked(ghost(200), 230, 0)]
    stems = [ghost(50), locked(ghost(70), 90, 0), Stem(90 * ONE, 95 * ONE + 3), free(250, 260)]
    stems += [Stem(*ghost_top(-5 * ONE)), locked(free(300, 310), 400, 405), ghost(60), free(40, 45)]
    yield 3 * HALF + 1, True, first, stems, [ABOVE]
    first = [locked(free(0, 100), 10, 12)]
    stems = [locked(ghost(10), 31, 0), ghost(20), free(30, 40), free(0, 9), locked(free(50, 60), 31, 32)]
    yield ONE, True, first, stems, [BELOW, BELOW]
    yield 1023, True, [], [Stem(5, 8), ghost(3), free(7, 9)], []


# Builds.


def build(params, scale, stems, first):
    """The initial map; the map of the first mask, what its second pass answers, the stems then."""
    state, stems = state_of(params, scale), [Stem(*ends) for ends in stems]
    initial = initial_map(state, stems)
    return initial, *built_map(state, mask_of(first), stems, initial), stems


def build_row(params, scale, stems, first=(255, 255), second=(0, 0), heights=()):
    """Scale, parameters, stems; initial map; a mask and its map, twice; what is saved; heights."""
    numbers = [scale, *param_words(params), len(stems), *(end for stem in stems for end in stem)]
    initial, hintmap, _, after = build(params, scale, stems, first)
    numbers += edge_numbers(initial) + [*first, *edge_numbers(hintmap)]
    other, _ = built_map(state_of(params, scale), mask_of(second), after, initial)
    numbers += [*second, *edge_numbers(other)]
    for stem in after:
        numbers += [int(stem.is_used), stem.ds_min, stem.ds_max]
    return row(numbers + height_numbers(hintmap, heights))


def starred():
    """The map that 01 stars: marked.py holds it to what 01 says."""
    yield PLAIN, 2048, units((16, 80)), (128, 0), (0, 0), bits(0, 48)


def stems_and_zones():
    ends = units((-5, 40), (200, 251), (440, 485)) + [ghost_bottom(100 * ONE), ghost_top(350 * ONE)]
    yield LETTER, 2100, ends, (255, 0), (0x48, 0), bits(-20, 0, 20, 300, 600)
    # Stem 1 is used when stem 0 comes, and stands in its way.
    few = units((50, 90), (20, 60), (120, 150), (300, 300), (420, 420))
    yield LETTER, 3000, few, (0x58, 0), (0xF8, 0)
    # The second captured stem is dropped and does not come again.
    yield font([(0, 3)], [(5, 12)]), 2600, [ghost_bottom(3 * ONE), *units((5, 60))], (0xC0, 0)


def em_boxes():
    yield font(group=1), 2048, units((-100, -60), (300, 345), (870, 900)), (0xE0, 0), (0x40, 0), bits(0, 900)
    yield EM_BOX, 700, units((10, 90)), (0x80, 0)
    # The top of the em box wraps under its bottom.
    yield font(group=1), 40 * ONE, units((-500, -400)), (0, 0)


def baselines():
    """All edges over 0, all under it, on both sides, one at 0. Zones alone give edges here."""
    yield font([(20, 30)]), 1024, units((25, 60)), (0, 0)
    yield font([(-30, -20)]), 1024, units((-25, -5)), (0, 0)
    yield font([(-30, -20)]), 1024, units((-25, 5)), (0, 0)
    yield font([(-10, 0)]), 1024, units((0, 30)), (0, 0)
    yield in_bits([(0, 0), (-ONE, 0)], fuzz=0), 1024, units((-30, 0)), (0, 0)
    # The first edge lies over 0 and its device height under it; the last edge the other way round.
    yield font([(1, 10)]), 2600, units((1, 400)), (0, 0)
    yield font([(-200, -190), (-10, -1)]), 2600, units((-100, -2)), (0, 0)


def close_stems(count):
    """Stems with narrow counters, from 1 upward."""
    ends, at = [], 0
    for _ in range(count):
        low = at + random.randint(2, 14)
        at = low + random.randint(3, 20)
        ends.append(bits(low, at))
    return ends


def crowds():
    """Stems that miss moves; the second pass, newest note first, makes all of them, or not all."""
    random.seed(SEED)
    for wanted in [[True], [True, True], [True, False]]:
        answers = None
        while answers != wanted:
            case = PLAIN, random.randint(1000, 7000), close_stems(1 + len(wanted)), (0xF0, 0)
            _, _, answers, _ = build(*case)
        yield case
    singles = [ghost_bottom(9 * ONE), *units((12, 19)), ghost_top(23 * ONE)]
    yield PLAIN, 4000, singles, (0xE0, 0), (0, 0), bits(0, 9, 21)


def touches():
    """Counters of just 0.5, and moves up and down of one length."""
    yield PLAIN, 2048, units((10, 26), (48, 80)), (0xC0, 0)
    # The first stem moves down, as far as it would have moved up, and misses nothing.
    yield PLAIN, 2048, [ghost_bottom(16 * ONE), *units((40, 56))], (0xC0, 0)
    # The second stem stays, and rises once the third has risen.
    stems = [ghost_bottom(22 * ONE), ghost_bottom(30 * ONE), *units((62, 78))]
    yield font([(20, 24)]), 2048, stems, (0xE0, 0)


def tables():
    builds = [starred, stems_and_zones, em_boxes, baselines, crowds, touches]
    return [[map_row(*case) for case in maps()], *([build_row(*case) for case in cases()] for cases in builds)]
