"""Tables of whole scripts.

The answers of the first and the last table are worked by hand. In those from the second to the
ninth numbers and places are; what is written there, and all of the other three, comes from the
model's script.py. Scripts are made by hand, and some of the damage comes from the seed below.
"""

import random

from ..calls import CLEAR, CLOSE, LINE, MOVE, NO_ROOM, OK, STEM
from ..numbers import HIGH, LOW, ONE
from ..script import words_of
from . import scripts_refused
from .form import packed
from .marked import WHOLE_RECORDS, WHOLE_RESULT
from .scripts_form import AMPLE, answered, byte, length, model_case, word, worked_case
from .scripts_good import (
    BOX, EMPTY, FULL, GOOD, LETTER, LETTER_KINDS, LOOKS, MASKED, PATHS, READINGS, WHOLE, padded_bytes,
)

SEED = 1013


def whole():
    """01's whole case: the commands at 16, 19, 22 and 25 have 3, 0, 3 and 2 words of records."""
    # Under 4 words the place is word 4's figure; from 4 on, the move's own. Both are 16.
    for room in range(7):
        yield WHOLE, room, NO_ROOM, 16, 0, []
    for room in range(7, 10):
        yield WHOLE, room, NO_ROOM, 22, 4, WHOLE_RECORDS[:3]
    for room in range(10, 12):
        yield WHOLE, room, NO_ROOM, 25, 4, WHOLE_RECORDS[:6]
    for room in range(12, 15):
        yield WHOLE, room, OK, 0, 0, WHOLE_RESULT


def rooms():
    """Every room from 0 to past the result."""
    for script in [EMPTY, MASKED, PATHS, BOX]:
        *_, result = answered(packed(script), AMPLE)
        for room in range(len(result) + 3):
            yield script, [], room
    # Some rooms for the longest.
    for room in [0, 3, 4, 7, 20, 30]:
        yield LETTER, [], room


def glyphs():
    """Each script with room, and at other scales, counts and groups."""
    for script in [*GOOD, *READINGS]:
        yield script, []
    for script in [LETTER, MASKED, PATHS, FULL, BOX]:
        for scale in [1, 700, 4567, HIGH]:
            yield script, [word(1, scale)]
    for script in [LETTER, FULL]:
        for place, values in {8: [0, 9000, HIGH], 9: [0, LOW], 10: [0, 30 * ONE], 11: [1, 2]}.items():
            yield from [(script, [word(place, value)]) for value in values]
    # The mask after the move is another part of the mask bytes, up to all of them.
    for start, count in [(0, 0), (1, 0), (0, 1), (0, 2), (0, 12), (1, 12), (1, 13), (0, 14)]:
        yield MASKED, [word(29, start), word(30, count)]
    # A clear for a close, and stems for moves.
    for place in LETTER_KINDS:
        if LETTER[place] == CLOSE:
            yield LETTER, [word(place, CLEAR)]
        elif LETTER[place] in (MOVE, LINE):
            yield from [(LETTER, [word(place, kind)]) for kind in (STEM, MOVE, LINE) if kind != LETTER[place]]


def of_bytes(data):
    """A script of its own and its length."""
    return words_of(padded_bytes(data)), [length(len(data))]


def damage():
    """Good scripts with words or bytes of them set, dropped, added or moved."""
    for script in [WHOLE, PATHS]:
        for place in range(16):
            for value in [script[place] - 1, script[place] + 1, LOW]:
                yield script, [word(place, value)]
    # A byte dropped or added.
    whole = packed(WHOLE)
    for place in [0, 4, 35, 66, 103]:
        yield of_bytes(whole[:place] + whole[place + 1 :])
        yield of_bytes(whole[:place] + b"\1" + whole[place:])
    # A word dropped or added.
    for place in [0, 1, 3, 5, 7, 12, 16, 17, 19, 25]:
        yield [*WHOLE[:place], *WHOLE[place + 1 :]], []
        yield [*WHOLE[:place], place % 3, *WHOLE[place:]], []
    # A byte dropped in one place and added in another.
    for _ in range(10):
        data = bytearray(whole)
        del data[random.randrange(len(data))]
        data.insert(random.randrange(len(data)), 1)
        yield of_bytes(data)
    # Any byte of commands and masks changed.
    for _ in range(25):
        yield LETTER, [byte(random.randrange(112, 4 * len(LETTER)), random.randrange(256))]


def looks():
    """A move, a line, a close and an end, with both points at x = 0."""
    for script, bottom, top in LOOKS:
        records = [1, 0, bottom * ONE, 2, 0, top * ONE, 4, 5]
        yield script, AMPLE, OK, 0, 0, [1, 4, 4, len(records), *records]


def tables():
    random.seed(SEED)
    worked, looked = [[worked_case(*case) for case in cases()] for cases in [whole, looks]]
    answered_by_model = [[model_case(*case) for case in cases()] for cases in [rooms, glyphs, damage]]
    return [worked, *scripts_refused.tables(), *answered_by_model, looked]
