"""Rooms of label runs.

Where the header and each glyph's records end stands by hand beside the run, and from that number
and glyph follow in every room. The words come from the model.
"""

from ..calls import CURVE, FINISH, LINE, MOVE, NO_ROOM
from ..labels import MOST_GLYPHS
from ..numbers import ONE
from .labels_by_hand import CURVED, EMPTY, ENDED, HALF_SCALE, HINTED, MOVED, STEMS, WAITING, WHOLE
from .labels_form import fine, glyph, refused, run_of

# A line is written by the call behind it, so that the four calls have 3, 0, 3 and 5 words.
CLOSED = glyph((MOVE, 1, 2), (LINE, 3, 4), (LINE, 5, 6), (FINISH,))
# Two calls of ten words each, of which the first three are the waiting line's.
TENS = glyph((LINE, 1, 2), (CURVE, 1, 2, 3, 4, 5, 6), (LINE, 7, 8), (CURVE, 1, 2, 3, 4, 5, 6))


def in_room(run, ends, room):
    """A case by where the header ends and the records of each glyph end."""
    short = [glyph for glyph, end in enumerate(ends) if end > room]
    return refused(run, NO_ROOM, short[0], room=room) if short else fine(run, ends[-1], room)


def every_room():
    """Runs in every room from none to past the result, by their ends."""
    runs = [
        (run_of(ONE), [2]),
        (run_of(ONE, EMPTY), [4, 4]),
        (run_of(ONE, CURVED), [4, 11]),
        (run_of(HALF_SCALE, WHOLE), [4, 12]),
        # Glyphs without records fit in a full output, wherever they stand.
        (run_of(ONE, EMPTY, MOVED), [6, 6, 9]),
        (run_of(ONE, MOVED, WAITING, STEMS), [8, 11, 11, 11]),
        (run_of(ONE, STEMS, ENDED, EMPTY, HINTED, MOVED, WAITING), [14, 14, 15, 15, 15, 18, 18]),
        (run_of(ONE, ENDED, EMPTY, ENDED), [8, 9, 9, 10]),
        # A move, two lines, a close and a finish are 11 words.
        (run_of(ONE, CLOSED, ENDED, CURVED), [8, 19, 20, 27]),
        (run_of(ONE, TENS, MOVED), [6, 26, 29]),
    ]
    for run, ends in runs:
        yield from [in_room(run, ends, room) for room in range(ends[-1] + 3)]


def full_runs():
    """As many glyphs as there may be, in rooms that end one word before each end, at it, and behind it."""
    # The header has 130 words. Glyphs by turns, of 1, 0, 3 and 0 words.
    turns = [ENDED, EMPTY, MOVED, WAITING] * (MOST_GLYPHS // 4)
    ends = [130]
    for size in [1, 0, 3, 0] * (MOST_GLYPHS // 4):
        ends.append(ends[-1] + size)
    for room in [0, 129, 130, 131, 133, 134, 161, 162, 190, 193, 194, 195]:
        yield in_room(run_of(ONE, *turns), ends, room)
    # One of 7 words behind those of none.
    late = [EMPTY] * (MOST_GLYPHS - 1) + [CURVED]
    for room in [129, 130, 136, 137]:
        yield in_room(run_of(ONE, *late), [130] * MOST_GLYPHS + [137], room)


def rooms():
    yield from every_room()
    yield from full_runs()
