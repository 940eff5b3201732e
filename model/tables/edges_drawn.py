"""Scripts with many stems and masks, drawn at random from the seed below.

The answers come from the model.
"""

import random

from ..calls import CLEAR, CLOSE, COUNTER_MASK, CURVE, FINISH, HINT_MASK, LINE, MOVE, STEM
from ..edges import RECORD_WORDS
from ..numbers import HIGH, LOW, ONE
from .edges_form import HELD_LIST, Seeing, answered, made
from .fonts import EM_BOX, FAMILY, FULL, LETTER, PLAIN, font

SEED = 1031
SCRIPTS = 180
# Ways on from a drawing with stems.
KINDS = [MOVE, LINE, LINE, HINT_MASK, HINT_MASK, COUNTER_MASK, CURVE, STEM, CLOSE, FINISH]
draw = random.Random()


def drawn_height():
    """A height in units: whole, or with a fraction, or, seldom, of any bits."""
    if draw.random() < 0.03:
        return draw.randrange(LOW, HIGH + 1) / ONE
    return draw.randrange(-250, 950) + draw.choice([0, 0, 0.5, draw.randrange(ONE) / ONE])


def drawn_stem():
    """A pair of any width, upside down or not, or a ghost."""
    bottom = drawn_height()
    width = draw.choice([-21, -20, 0, draw.randrange(1, 30), draw.randrange(20, 120), -draw.randrange(22, 90)])
    return STEM, bottom, max(min(bottom + width, HIGH / ONE), LOW / ONE)


def drawn_command(masks):
    """A command. Its mask bytes, if it has some, go to the others."""
    kind = draw.choice(KINDS) if draw.random() < 0.97 else CLEAR
    if kind == STEM:
        return drawn_stem()
    if kind in (HINT_MASK, COUNTER_MASK):
        first, data = len(masks), draw.randbytes(draw.choice([0, 1, 2, 2, 3, 3, 12, 13]))
        masks += data
        return kind, first, len(data)
    return kind, *[drawn_height() for _ in range({MOVE: 2, LINE: 2, CURVE: 6}.get(kind, 0))]


def drawn_script():
    """A script that ends with a line, and how many commands it has."""
    params = draw.choice([PLAIN, LETTER, FAMILY, FULL, EM_BOX, font(group=1)])
    scale = draw.choice([draw.randrange(600, 6000), draw.randrange(600, 6000), draw.randrange(1, ONE), ONE])
    masks = bytearray()
    commands = [drawn_stem() for _ in range(draw.choice([1, 2, 4, 8, 16, 24]))]
    commands += [drawn_command(masks) for _ in range(draw.randrange(11))]
    commands.append((LINE, drawn_height(), drawn_height()))
    return made(params, scale, *commands, masks=masks), len(commands)


def drawn():
    """Each to its end, or to a command near it, in a list that is long enough, or, seldom, is not."""
    draw.seed(SEED)
    for _ in range(SCRIPTS):
        script, last = drawn_script()
        commands = max(last - draw.choice([0, 0, 0, 0, 1, 2, 3]), 0)
        *_, words = answered(script, commands, HELD_LIST)
        spare = draw.choice([0, 0, 1, 2, 3, 4, 5, 6, 9, -1, -RECORD_WORDS])
        yield Seeing(script, commands, max(len(words) + spare, 0))
