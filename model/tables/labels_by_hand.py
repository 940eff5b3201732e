"""Label runs whose answers are worked by hand, to the last word.

At a scale of 1.0 a point goes out as it is given where no stem is. A stem from 10.25 to 20.25 that
no zone holds goes a quarter of a pixel down, and a point on its bottom to 10.0.
"""

from ..calls import (
    BAD_BLUES, BAD_COMMAND, BAD_MASK, BAD_SCALE, CLEAR, CLOSE, COUNTER_MASK, CURVE, FINISH, HINT_MASK, LINE, MOVE,
    NO_ROOM, STEM
)
from ..labels import MOST_GLYPHS, RUN_COUNT
from ..numbers import ONE
from ..stems import MAX_HINTS
from .fonts import LETTER, font
from .labels_form import glyph, glyph_in, refused, run_of, written
from .marked import WHOLE_RECORDS, WHOLE_RESULT, WHOLE_SCRIPT

# 01's whole case is at half a pixel a unit.
HALF_SCALE = ONE // 2
WHOLE = glyph_in(WHOLE_SCRIPT)
EMPTY = glyph()
ENDED = glyph((FINISH,))
# Glyphs without records: a stem, every call that has none, and a line that waits.
STEMS = glyph((STEM, 10.25, 20.25))
HINTED = glyph((STEM, 10.25, 20.25), (HINT_MASK, 0, 1), (COUNTER_MASK, 0, 1), (CLEAR,), (CLOSE,), masks=[0x80])
WAITING = glyph((LINE, 3, 4))
# Records of one call each, in whole units.
MOVED = glyph((MOVE, 7, 8))
MOVE_RECORD = [1, 7 * ONE, 8 * ONE]
CURVED = glyph((CURVE, 1, 2, 3, 4, 5, 6))
CURVE_RECORD = [3, *[ONE * unit for unit in range(1, 7)]]


def few_glyphs():
    """None, and one."""
    for room in [2, 3, 7]:
        yield written(run_of(ONE), 1, 0, room=room)
    for each in [EMPTY, STEMS, HINTED, WAITING]:
        for room in [4, 6]:
            yield written(run_of(ONE, each), 1, 1, 4, 0, room=room)
    # One record: the words are those of the script's own result, in which 4 is the header's length.
    yield written(run_of(ONE, ENDED), 1, 1, 4, 1, 5)
    yield written(run_of(ONE, MOVED), 1, 1, 4, 3, *MOVE_RECORD)
    yield written(run_of(ONE, CURVED), 1, 1, 4, 7, *CURVE_RECORD)
    # Four records: the second word is 1 for a glyph, where the script's own result has 4.
    assert WHOLE_RESULT[:4] == [1, 4, 4, 8]
    for room in [12, 15]:
        yield written(run_of(HALF_SCALE, WHOLE), 1, 1, 4, 8, *WHOLE_RECORDS, room=room)


def more_glyphs():
    """Offsets and lengths, with glyphs without records in every place."""
    yield written(run_of(ONE, EMPTY, EMPTY), 1, 2, 6, 0, 6, 0)
    yield written(run_of(ONE, ENDED, ENDED), 1, 2, 6, 1, 7, 1, 5, 5)
    yield written(run_of(ONE, ENDED, EMPTY), 1, 2, 6, 1, 7, 0, 5)
    yield written(run_of(ONE, EMPTY, ENDED), 1, 2, 6, 0, 6, 1, 5)
    yield written(run_of(ONE, MOVED, STEMS, ENDED), 1, 3, 8, 3, 11, 0, 11, 1, *MOVE_RECORD, 5)
    yield written(run_of(ONE, WAITING, CURVED, HINTED), 1, 3, 8, 0, 8, 7, 15, 0, *CURVE_RECORD)
    yield written(
        run_of(HALF_SCALE, WHOLE, EMPTY, WHOLE, ENDED), 1, 4, 10, 8, 18, 0, 18, 8, 26, 1,
        *WHOLE_RECORDS, *WHOLE_RECORDS, 5, room=30,
    )
    # As many glyphs as there may be: the header has 130 words.
    none = [number for _ in range(MOST_GLYPHS) for number in (130, 0)]
    yield written(run_of(ONE, *[EMPTY] * MOST_GLYPHS), 1, 64, *none)
    each = [number for at in range(MOST_GLYPHS) for number in (130 + at, 1)]
    yield written(run_of(ONE, *[ENDED] * MOST_GLYPHS), 1, 64, *each, *[5] * MOST_GLYPHS)
    # Records of the last alone.
    last = [number for _ in range(MOST_GLYPHS - 1) for number in (130, 0)]
    yield written(run_of(ONE, *[EMPTY] * (MOST_GLYPHS - 1), MOVED), 1, 64, *last, 130, 3, *MOVE_RECORD)


def zones():
    """A top zone from 480 on holds the top of a stem from 440 to 480.25 in every glyph, and it goes to 480.0."""
    held, records = glyph((STEM, 440, 480.25), (MOVE, 0, 480.25)), [1, 0, 480 * ONE]
    # Without the zone the bottom lies on a whole pixel, and the stem stays. The zone is the seventh pair as well.
    yield written(run_of(ONE, held), 1, 1, 4, 3, 1, 0, 480 * ONE + ONE // 4)
    below = [(low, low + 10) for low in range(-700, -100, 100)]
    for params in [LETTER, font([*below, (480, 492)])]:
        yield written(run_of(ONE, held, params=params), 1, 1, 4, 3, *records)
        yield written(run_of(ONE, held, held, held, params=params), 1, 3, 8, 3, 11, 3, 14, 3, *records * 3)


def faults():
    """Each refusal once."""
    yield refused(run_of(ONE, ENDED)._replace(lengths=[1]), RUN_COUNT)
    yield refused(run_of(ONE, *[EMPTY] * (MOST_GLYPHS + 1)), RUN_COUNT)
    yield refused(run_of(ONE, ENDED)._replace(lengths=[2, 0]), RUN_COUNT)
    yield refused(run_of(0, ENDED), BAD_SCALE)
    yield refused(run_of(0), BAD_SCALE)
    # The second count is one too many.
    yield refused(run_of(ONE, ENDED)._replace(params=[0, 0, 0, 0, 0, 8]), BAD_BLUES)
    # There is no kind 10; the place counts the glyph's own words.
    yield refused(run_of(ONE, MOVED, glyph((CLOSE,), (10,))), BAD_COMMAND, 2, 1)
    # A line lacks an operand, though the words of the next glyph follow.
    cut = run_of(ONE, ENDED, glyph((FINISH,), (LINE, 1)), MOVED)
    yield refused(cut, BAD_COMMAND, 2, 1)
    # One byte is asked for behind the glyph's own, though those of the next glyph follow.
    yield refused(run_of(ONE, HINTED, glyph((HINT_MASK, 1, 1), masks=[1]), HINTED), BAD_MASK, 2, 0)
    # The header has 6 words, the first glyph's records end at 9, the second's at 10.
    two = run_of(ONE, MOVED, ENDED)
    for room, short in [(0, 0), (5, 0), (6, 1), (8, 1), (9, 2)]:
        yield refused(two, NO_ROOM, short, room=room)
    yield refused(run_of(ONE), NO_ROOM, 0, room=0)
    yield refused(run_of(ONE), NO_ROOM, 0, room=1)


def by_hand():
    for cases in [few_glyphs, more_glyphs, zones, faults]:
        yield from cases()


# A point on the stem's bottom, and the record of a move there, with the stem and without it.
GRID = glyph((STEM, 10.25, 20.25), (MOVE, 0, 10.25))
ON_GRID, OFF_GRID = [1, 0, 10 * ONE], [1, 0, 10 * ONE + ONE // 4]


def passing():
    """A glyph, its records, the next glyph, and its records."""
    # Stems, a valid map and a start: the second would be on the grid, and close the first's path.
    yield GRID, ON_GRID, glyph((MOVE, 0, 10.25)), OFF_GRID
    yield STEMS, [], glyph((MOVE, 0, 10.25)), OFF_GRID
    # A valid map: the second's stem would be ignored.
    yield glyph((MOVE, 0, 10.25)), OFF_GRID, GRID, ON_GRID
    yield WAITING, [], GRID, ON_GRID
    # A mask of no stems, and one of the second stem.
    yield glyph((STEM, 10.25, 20.25), (HINT_MASK, 0, 0), (MOVE, 0, 10.25)), OFF_GRID, GRID, ON_GRID
    yield glyph((HINT_MASK, 0, 1), masks=[0x40]), [], GRID, ON_GRID
    # Stems that are used, by a map and by a counter mask: the second would stand at 10.0.
    higher = glyph((STEM, 30.25, 50.25), (MOVE, 0, 30.25))
    yield GRID, ON_GRID, higher, [1, 0, 30 * ONE]
    yield glyph((STEM, 10.25, 20.25), (COUNTER_MASK, 0, 1), masks=[0x80]), [], higher, [1, 0, 30 * ONE]
    # An initial map: a zone moves the first's stem a quarter up, and the second would go that way before it is rounded.
    held = glyph((STEM, -0.25, 40), (MOVE, 0, -0.25))
    yield held, [1, 0, 0], glyph((STEM, 100.375, 120.375), (MOVE, 0, 100.375)), [1, 0, 100 * ONE]
    # As many stems as there may be: the second's would be ignored.
    yield glyph(*[(STEM, 2 * at, 2 * at + 1) for at in range(MAX_HINTS)]), [], GRID, ON_GRID
    # A start, which a finish or a move closes.
    start = glyph((MOVE, 1, 2))
    for after, records in [(ENDED, [5]), (MOVED, MOVE_RECORD), (WAITING, []), (CURVED, CURVE_RECORD)]:
        yield start, [1, ONE, 2 * ONE], after, records
        # A start and a waiting line, which a finish, a move, a line or a curve emits.
        yield glyph((MOVE, 1, 2), (LINE, 3, 4)), [1, ONE, 2 * ONE], after, records
        # A waiting line alone, which a line or a curve emits.
        yield WAITING, [], after, records
        # A path that is closed, and a waiting line behind it.
        yield glyph((FINISH,), (LINE, 3, 4)), [5], after, records


def apart():
    """Nothing passes from a glyph to the next, nor to the one after that."""
    for first, records, second, others in passing():
        size, other = len(records), len(others)
        both = run_of(ONE, first, second, params=LETTER)
        yield written(both, 1, 2, 6, size, 6 + size, other, *records, *others)
        between = run_of(ONE, first, second, first, params=LETTER)
        end = 8 + size + other
        entries = [8, size, 8 + size, other, end, size]
        yield written(between, 1, 3, *entries, *records, *others, *records, room=end + size + 3)
