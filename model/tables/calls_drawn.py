"""Calls and sequences drawn at random. Whoever calls these sets the seed."""

import random

from ..calls import CURVE, FINISH, LINE, MOVE
from .calls_form import ALL, counter_mask, curve, finish, hint_mask, line, move, stem
from .fonts import EM_BOX, FAMILY, LETTER, PLAIN

FONTS = [PLAIN, LETTER, FAMILY, EM_BOX]
SCALES = [700, 1024, 2048, 2100, 3000, 4567]
# Where several paths go, so that lines come back to a start.
MEETING = 10, 20.5


def some(least, most, *ways):
    return [random.choice(ways)() for _ in range(random.randint(least, most))]


def drawn_stem():
    low, width = random.choice([-9, -5, 0, random.randint(-60, 500)]), random.randint(8, 90)
    ends = [(low, low + width)] * 4 + [(484 - width, 484)] * 2
    ends += [(low + width, low), (low + 21, low), (low, low - 20), (low, low)]
    return stem(*random.choice(ends))


def drawn_bytes():
    count = random.choice([0, 1, 1, 1, 2, 12, 13])
    return random.choice([ALL, *[[random.randrange(256) for _ in range(count)]] * 2])


def drawn_hint_mask():
    return hint_mask(*drawn_bytes())


def drawn_counter_mask():
    return counter_mask(*drawn_bytes())


def drawn_point():
    return random.randint(-500, 500) / 8, random.randint(-50 * 8, 520 * 8) / 8


def drawn_call():
    """A call of a path."""
    kind = random.choice([MOVE, LINE, LINE, CURVE, FINISH])
    if kind == CURVE:
        return curve(*drawn_point(), *drawn_point(), *drawn_point())
    if kind == FINISH:
        return finish()
    point = MEETING if random.random() < 0.4 else drawn_point()
    return move(*point) if kind == MOVE else line(*point)


def drawn_case(calls):
    return random.choice(FONTS), random.choice(SCALES), [*calls, finish()]
