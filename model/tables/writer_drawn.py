"""What scripts are written from, drawn at random from the seed below, and damaged copies of it.

The answers come from the model.
"""

import random

from ..calls import OK
from ..numbers import HIGH, LOW, ONE, wrapped
from ..writer import GIVEN_OPERANDS, LIST_WORDS, MASK_KINDS, PARAM_WORDS, Given, whole_params, write
from ..zones import MOST_PAIRS
from .writer_form import HELD_PARAMS, Writing

SEED = 1021
GOOD, DAMAGED = 80, 110
AMPLE = 4096
draw = random.Random()


def drawn_word():
    """A word near 0, of whole units, at the ends of the range, or any."""
    near, far = draw.randrange(-12, 13), draw.randrange(LOW, HIGH + 1)
    return draw.choice([near, near * ONE, draw.choice([LOW, LOW + 1, HIGH - 1, HIGH]), far])


def drawn_words(count):
    return [drawn_word() for _ in range(count)]


def drawn_params():
    """Few pairs or many. The list may end where the rest is not read, or go on."""
    most = draw.choice([0, 1, 2, MOST_PAIRS])
    counts = [draw.randrange(most + 1) for _ in range(4)]
    params = [*drawn_words(4), *counts]
    for count in counts:
        params += [*drawn_words(2 * count), *[0] * (LIST_WORDS - 2 * count)]
    if draw.random() < 0.2:
        # Pairs past the counts are not zero, and words past the last are not read.
        params = [word or drawn_word() for word in params[8:]]
        return [*drawn_words(4), *counts, *params, *drawn_words(draw.randrange(HELD_PARAMS - PARAM_WORDS + 1))]
    while params and params[-1] == 0:
        params.pop()
    return params


def drawn_command():
    """The words of a command, and its mask bytes."""
    kind = draw.choice([*GIVEN_OPERANDS, *MASK_KINDS])
    if kind not in MASK_KINDS:
        return [kind, *drawn_words(GIVEN_OPERANDS[kind])], b""
    length = draw.choice([0, 1, 1, 2, 3, draw.randrange(16)])
    return [kind, length], draw.randbytes(length)


def drawn_given():
    commands = [drawn_command() for _ in range(draw.randrange(10))]
    words = [word for parts, _ in commands for word in parts]
    masks = b"".join(data for _, data in commands)
    scale = draw.choice([1, ONE, HIGH, draw.randrange(1, HIGH), draw.randrange(1, ONE)])
    return Given(scale, drawn_params(), words, masks)


def size_of(given):
    """The size of a script that is not refused."""
    number, _, size, _ = write(given, AMPLE)
    assert number == OK
    return size


# Damage.


def spliced(words, dropped, *added):
    """Some words dropped and some added, in one place."""
    at = draw.randrange(len(words) + 1)
    return words[:at] + type(words)(added) + words[at + dropped :]


def damaged(given, room):
    """One of the parts changed a little, and the room as it was."""
    scale, params, words, masks = given
    what = draw.randrange(10)
    if what == 0:
        return given._replace(scale=draw.choice([0, -1, LOW, -scale])), room
    if what == 1:
        at, value = draw.randrange(4, 8), draw.choice([-1, 0, 1, 7, 8, drawn_word()])
        params = whole_params(params)
        return given._replace(params=[*params[:at], value, *params[at + 1 :]]), room
    if what == 2:
        return given, draw.randrange(room + 1)
    if what == 3:
        return given._replace(masks=spliced(masks, 1)), room
    if what == 4:
        return given._replace(masks=spliced(masks, 0, draw.randrange(256))), room
    if what == 5:
        return given._replace(commands=spliced(words, 1)), room
    if what == 6:
        return given._replace(commands=spliced(words, 0, drawn_word())), room
    if what == 7:
        return given._replace(commands=words[: draw.randrange(len(words) + 1)]), room
    at = draw.randrange(len(words) + 1)
    near = [wrapped(word + draw.choice([-1, 1, 2, -word])) for word in words[at : at + 1]]
    return given._replace(commands=[*words[:at], *near, *words[at + 1 :]]), room


def glyphs():
    draw.seed(SEED)
    good = [drawn_given() for _ in range(GOOD)]
    for given in good:
        yield Writing(given, size_of(given) + draw.choice([0, 0, 0, 1, 2, 3, 5, 8]), (OK, 0))
    for _ in range(DAMAGED):
        given = draw.choice(good)
        yield Writing(*damaged(given, size_of(given) + draw.choice([0, 0, 3, 12])))
