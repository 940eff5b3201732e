"""Tables of openings and sequences of calls on a drawing.

The first table is worked by hand; what is expected in the others comes from the model's calls.py.
The cases of openings, paths and rooms are chosen by hand or are all that there are; the rest come
from the seed below.
"""

import random
from itertools import product as sequences

from ..calls import CURVE, DRAWING, FINISH, LINE, MOVE, STEM
from ..numbers import HIGH, LOW, ONE
from . import calls_by_hand, calls_slips
from .calls_drawn import FONTS, MEETING, drawn_call, drawn_case, drawn_counter_mask, drawn_hint_mask, drawn_stem, some
from .calls_form import AMPLE, CLEARS, CLOSES, answers_of, curve, finish, line, model_row, move, stem, with_room
from .fonts import EM_BOX, FULL, LETTER, PLAIN, font, seven

SEED = 1013
# A line to where the last move went.
BACK = 0


def openings():
    """Scales, counts of pairs up to 8 in each list, and calls on what opening gives."""
    calls = [stem(-3, 41), stem(430, 485), move(7, -2), line(9, 484.5), finish()]
    for scale in [LOW, -ONE, -1, 0, 1, 2, 2100, HIGH]:
        yield LETTER, scale, calls
    yield FULL, 2100, calls
    eight = [seven(rise) + [(700, 710)] for rise in range(4)]
    for full in range(4):
        lists = [[(100 * n, 100 * n + 9)] for n in range(4)]
        lists[full] = eight[full]
        yield font(*lists), 2100, calls
        yield font(*lists), 0, calls
    yield font(*eight), 2100, calls
    yield EM_BOX, 2100, calls


def path(kinds):
    """Calls of some kinds at points of their own, those of BACK at the last move's."""
    calls, start = [], MEETING
    for count, kind in enumerate(kinds, 1):
        x, y = 3 * count + 1 / 64, 5 * count + 1 / 128
        if kind == MOVE:
            start = x, y
            calls.append(move(x, y))
        elif kind == CURVE:
            calls.append(curve(x, y, x + 1, y - 30, x - 40, y + 2))
        elif kind == FINISH:
            calls.append(finish())
        else:
            calls.append(line(*(start if kind == BACK else (x, y))))
    return calls


def paths():
    """Every sequence of three calls of a path, and a finish."""
    for kinds in sequences([MOVE, LINE, BACK, CURVE, FINISH], repeat=3):
        yield PLAIN, 43210, [*path(kinds), finish()]


def rooms():
    """Each call in each state of a path, with every room that is too small, then enough or more."""
    befores = [[], [MOVE], [LINE], [MOVE, LINE], [MOVE, BACK], [MOVE, CURVE]]
    for before, kind, more in sequences(befores, [MOVE, LINE, BACK, CURVE, FINISH], [0, 1, 5]):
        *calls, last = path([*before, kind])
        _, words = answers_of(PLAIN, ONE, [*calls, last])[-1]
        refused = [with_room(last, room) for room in range(len(words))] if more == 0 else []
        yield PLAIN, 3 * ONE // 2, [*calls, *refused, with_room(last, len(words) + more), finish()]


def mixed():
    """Some stems, then calls of all kinds, some of them short of room."""
    others = [drawn_stem, drawn_hint_mask, drawn_counter_mask, lambda: CLEARS, lambda: CLOSES]
    for _ in range(40):
        calls = some(1, 4, drawn_stem)
        for call in some(9, 9, *[drawn_call] * 10, *others):
            if call[0] in DRAWING and random.random() < 0.3:
                calls.append(with_room(call, random.randrange(10)))
            calls.append(call)
        yield drawn_case(calls)


def extremes():
    """Points, stems and scales at the ends of the range."""
    ends = [LOW, LOW + 1, -1, 0, 1, HIGH - 1, HIGH]
    for scale in [1, 2, ONE, HIGH]:
        for _ in range(3):
            drawn = tuple(random.choice(ends) for _ in range(16))
            calls = [(STEM, drawn[:2], 0), (STEM, drawn[2:4], 0), (MOVE, drawn[4:6], AMPLE)]
            calls += [(LINE, drawn[6:8], AMPLE), (CURVE, drawn[8:14], AMPLE), (LINE, drawn[14:], AMPLE)]
            yield random.choice(FONTS), scale, [*calls, finish()]


SLIPS = [calls_slips.stems, calls_slips.masks, calls_slips.counter_masks, calls_slips.clears, calls_slips.refusals]


def tables():
    random.seed(SEED)
    parts = [openings, paths, rooms, *SLIPS, mixed, extremes]
    return [calls_by_hand.table(), *([model_row(*case) for case in cases()] for cases in parts)]
