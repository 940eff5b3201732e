"""What 01 says in figures: those that it marks, and its whole case. The model is held to them."""

from ..calls import NO_ROOM, OK
from ..hintmap import NO_PLACE, HintMap, built_map, initial_map, insert, mapped
from ..numbers import HALF, ONE, bits, output, product, rounded
from ..script import run_script
from ..stems import (
    ABSENT, ALL_ACTIVE, GHOST_BOTTOM, GHOST_TOP, MASK_BYTES, MAX_HINTS, PAIR_BOTTOM, PAIR_TOP, Stem, edges_of, mask_of,
    shape
)
from ..zones import state_of
from .fonts import PLAIN, ghost_bottom
from .form import packed

WHOLE_SCRIPT = [1, 32768, 8, 8, 16, 10, 26, 0, 2597, 458752, 65536, 0, 0, 0, 0, 0]
WHOLE_SCRIPT += [5, 655360, 1310720, 6, 1966080, 1310720, 6, 655360, 1310720, 9]
WHOLE_RECORDS = [1, 327680, 655360, 2, 983040, 655360, 4, 5]
WHOLE_RESULT = [1, 4, 4, 8, *WHOLE_RECORDS]


def masks_and_stems():
    yield "mask of 0 bytes", [0] * MAX_HINTS, mask_of([])
    yield "mask of 13 bytes", [1] * MAX_HINTS, mask_of([0] * (MASK_BYTES + 1))
    yield "mask of 0x80", [1] + [0] * (MAX_HINTS - 1), mask_of([0x80])
    yield "stem 100 to 79", ((GHOST_BOTTOM, 79 * ONE), (ABSENT, 0)), shape(Stem(*bits(100, 79)))
    yield "stem 100 to 80", ((ABSENT, 0), (GHOST_TOP, 100 * ONE)), shape(Stem(*bits(100, 80)))
    yield "stem 100 to 78", ((PAIR_BOTTOM, 78 * ONE), (PAIR_TOP, 100 * ONE)), shape(Stem(*bits(100, 78)))


def stem_on_the_grid():
    state, stems = state_of(PLAIN, 2048), [Stem(*bits(16, 80))]
    hintmap, _ = built_map(state, ALL_ACTIVE, stems, initial_map(state, stems))
    yield "stem 16 to 80 on the device", [ONE, 3 * ONE], [edge.device for edge in hintmap.edges]
    yield "0 and 48 by its map", [HALF, 2 * ONE], [mapped(hintmap, height) for height in bits(0, 48)]


def numbers():
    yield "boost at 2048 and 1", [8313, 32767], [state_of(PLAIN, scale).boost for scale in (2048, 1)]
    yield "output of 1023, 1024, -1", [0, 1024, -1024], [output(number) for number in (1023, 1024, -1)]
    yield "-32768 rounded", 0, rounded(-32768)
    yield "product of -1 and 32768", -1, product(-1, 32768)


def one_place_left():
    """What a map of 95 edges answers to a stem."""
    hintmap = HintMap(ONE)
    for height in range(MAX_HINTS - 1):
        insert(hintmap, edges_of(Stem(*ghost_bottom(height * ONE)), ONE))
    pair, single = Stem(*bits(200, 201)), Stem(*ghost_bottom(200 * ONE))
    yield "95 edges and a pair", NO_PLACE, insert(hintmap, edges_of(pair, ONE))
    yield "95 edges and a single", "", insert(hintmap, edges_of(single, ONE))


def whole_case():
    for room, said in [(12, (OK, 0)), (11, (NO_ROOM, 25))]:
        out = [None] * room
        yield f"whole case in {room} words", said, run_script(packed(WHOLE_SCRIPT), out)
        if said == (OK, 0):
            yield "its result", WHOLE_RESULT, out


def differing():
    """How many figures there are, and the names of those that the model gives otherwise."""
    parts = [masks_and_stems, stem_on_the_grid, numbers, one_place_left, whole_case]
    figures = [figure for part in parts for figure in part()]
    return len(figures), [name for name, said, given in figures if said != given]
