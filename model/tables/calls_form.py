"""Sequences of calls, and their rows.

A call is its kind, its operands and the room that it is lent. Operands are given in whole units, or
parts of one.
"""

from ..calls import CLEAR, CLOSE, COUNTER_MASK, CURVE, FINISH, HINT_MASK, HINTING, LINE, MOVE, STEM, Drawing, opened
from ..numbers import bits
from ..stems import MASK_BYTES
from .fonts import param_words
from .form import row

# More words than any call writes.
AMPLE = 12
ALL = [255] * MASK_BYTES


def stem(low, high):
    return STEM, bits(low, high), 0


def hint_mask(*given):
    return HINT_MASK, (given,), 0


def counter_mask(*given):
    return COUNTER_MASK, (given,), 0


CLEARS, CLOSES = (CLEAR, (), 0), (CLOSE, (), 0)


def move(x, y, room=AMPLE):
    return MOVE, bits(x, y), room


def line(x, y, room=AMPLE):
    return LINE, bits(x, y), room


def curve(*ends, room=AMPLE):
    return CURVE, bits(*ends), room


def finish(room=AMPLE):
    return FINISH, (), room


def with_room(call, room):
    kind, operands, _ = call
    return kind, operands, room


def answers_of(params, scale, calls, drawing=Drawing):
    """What each call on a drawing of this kind answers: its number and the words, or nothing."""
    _, drawing = opened(params, scale, drawing)
    answers = []
    for kind, operands, room in calls:
        if kind in HINTING:
            drawing = drawing.hinted(kind, operands)
            answers.append(None)
        else:
            drawing, *answer = drawing.drawn(kind, operands, room)
            answers.append(answer)
    return answers


def call_numbers(call, answer):
    """A mask has a count and its bytes; a call with records room, answer, a count and words."""
    kind, operands, room = call
    if kind in (HINT_MASK, COUNTER_MASK):
        return [kind, len(operands[0]), *operands[0]]
    if kind in HINTING:
        return [kind, *operands]
    number, words = answer
    return [kind, *operands, room, number, len(words), *words]


def row_of(params, scale, number, calls, answers):
    """A scale and parameters, the answer of opening, and each call."""
    steps = [number for call, answer in zip(calls, answers) for number in call_numbers(call, answer)]
    return row([scale, *param_words(params), number, *steps])


def model_row(params, scale, calls):
    number, _ = opened(params, scale)
    return row_of(params, scale, number, calls, answers_of(params, scale, calls))
