"""Glyphs of the good scripts in groups, drawn at random from the seed below, and damaged copies.

Each group has a font and a scale of its own, at which all of its glyphs are run. The answers come
from the model.
"""

import random

from ..calls import OK
from ..numbers import HIGH, LOW, ONE, wrapped
from .fonts import EM_BOX, FAMILY, FULL, LETTER, PLAIN, font
from .labels_form import HELD_OUT, Labelling, answered, glyph_in, run_of
from .scripts_good import GOOD, LOOKS, READINGS

SEED = 1039
# How many glyphs the groups have, and how many copies are damaged.
SIZES = [*range(2, 13), *range(2, 9), 16, 24, 40, 63, 64]
DAMAGED = 130
# Longer groups are not damaged.
LONG = 6
GLYPHS = [glyph_in(script) for script in [*GOOD, *READINGS, *[script for script, *_ in LOOKS]]]
FONTS = [PLAIN, LETTER, FAMILY, FULL, EM_BOX, font(group=1)]
draw = random.Random()


def drawn_run(size):
    """So many glyphs, each once before any comes again."""
    glyphs = []
    while len(glyphs) < size:
        glyphs += draw.sample(GLYPHS, len(GLYPHS))
    scale = draw.choice([draw.randrange(600, 6000), draw.randrange(600, 6000), draw.randrange(1, ONE), 1, ONE, HIGH])
    return run_of(scale, *glyphs[:size], params=draw.choice(FONTS))


def drawn_word():
    """A word near 0, at the ends of the range, or any."""
    return draw.choice([draw.randrange(-12, 13), draw.choice([LOW, HIGH]), draw.randrange(LOW, HIGH + 1)])


def size_of(run):
    number, _, _, size, _ = answered(run, HELD_OUT)
    assert number == OK
    return size


# Damage.


def with_one(numbers, *values):
    """A list with one of its numbers left out, or replaced."""
    at = draw.randrange(len(numbers))
    return [*numbers[:at], *values, *numbers[at + 1 :]]


def moved_end(lengths):
    """A word or a byte goes from a glyph to another."""
    part = draw.randrange(2)
    first, second = draw.sample(range(part, len(lengths), 2), 2)
    moved = [*lengths]
    moved[first] -= 1
    moved[second] += 1
    return moved


def damaged(run, room):
    """One of the parts changed a little, or the room."""
    what = draw.randrange(12)
    if what == 0:
        return run._replace(scale=draw.choice([0, -1, LOW, -run.scale])), room
    if what == 1:
        params = [*run.params, *[0] * (8 - len(run.params))]
        params[draw.randrange(4, 8)] = draw.choice([-1, 8, drawn_word()])
        return run._replace(params=params), room
    if what == 2:
        return run._replace(lengths=with_one(run.lengths, drawn_word())), room
    if what == 3:
        return run._replace(lengths=with_one(run.lengths)), room
    if what in (4, 5):
        return run._replace(lengths=moved_end(run.lengths)), room
    if what in (6, 7):
        return run, draw.randrange(room)
    if what in (8, 9):
        # A word of the commands is another.
        word = draw.choice([drawn_word(), draw.randrange(1, 10)])
        return run._replace(commands=with_one(run.commands, word)), room
    # It is one near it.
    at = draw.randrange(len(run.commands))
    near = wrapped(run.commands[at] + draw.choice([-1, 1, 2]))
    return run._replace(commands=[*run.commands[:at], near, *run.commands[at + 1 :]]), room


def groups():
    draw.seed(SEED)
    runs = [drawn_run(size) for size in SIZES]
    for run in runs:
        yield Labelling(run, size_of(run) + draw.choice([0, 0, 0, 1, 2, 7]), (OK, 0, 0))
    short = [run for run in runs if run.commands and len(run.lengths) <= 2 * LONG]
    for _ in range(DAMAGED):
        run = draw.choice(short)
        yield Labelling(*damaged(run, size_of(run) + draw.choice([0, 0, 3])))
