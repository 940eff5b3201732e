"""Scripts whose edges are listed after so many commands, and scripts that are refused.

Scripts, numbers and places are written by hand here or in the tables of scripts. What is listed
comes from the model.
"""

from itertools import combinations

from ..calls import (
    BAD_BLUES, BAD_COMMAND, BAD_MASK, BAD_SCALE, BAD_SCRIPT, CLOSE, COUNTER_MASK, HINT_MASK, LINE, MOVE, OK, STEM
)
from ..edges import LIST_ROOM, RECORD_WORDS
from ..script import MOST_BYTES, commands_in, words_of
from . import scripts_refused
from .edges_by_hand import GHOSTS, GRID
from .edges_form import ALL, FAR, HELD_LIST, Seeing, answered, refused
from .fonts import FAMILY
from .form import packed
from .scripts_form import byte, changed, length, word
from .scripts_good import BOX, EMPTY, FULL, LETTER, MASKED, PATHS, READINGS, script_of
from .scripts_refused import filled
from .writer_read import LONG, stored_scripts


def command_count(script):
    return len(commands_in(script, words_of(script)))


def exactly(script, commands):
    """Into a list that has just the room."""
    *_, words = answered(script, commands, HELD_LIST)
    return Seeing(script, commands, len(words), (OK, 0))


def commands():
    """After each command, after more than there are, and after far more."""
    scripts = [GRID, GHOSTS, *map(packed, [LETTER, MASKED, PATHS, FULL, BOX, READINGS[-1]])]
    for script in scripts:
        for count in [*range(command_count(script) + 3), *FAR]:
            case = exactly(script, count)
            yield case._replace(room=case.room + RECORD_WORDS + 1)
            if case.room:
                yield refused(script, LIST_ROOM, 0, count, case.room - 1)


def good_scripts():
    """Scripts that 01 accepts, to the middle and to the end; the longest, and one that is longer."""
    for script in stored_scripts():
        if len(script) <= LONG:
            last = command_count(script)
            for count in sorted({last // 2, last}):
                yield exactly(script, count)
    closes = changed(EMPTY, filled(MOST_BYTES))
    yield exactly(closes, ALL)
    yield exactly(closes, 16000)
    yield refused(changed(EMPTY, filled(MOST_BYTES + 4)), BAD_SCRIPT, 0)


# Refusals.


def refusals():
    """Every second script that 01 refuses, some of them after fewer commands than come before the fault."""
    parts = [scripts_refused.header_words, scripts_refused.padding, scripts_refused.parameters, scripts_refused.kinds]
    parts += [scripts_refused.lengths, scripts_refused.cuts, scripts_refused.masks]
    cases = [case for part in parts for case in part() if BAD_SCRIPT <= case[2] <= BAD_MASK]
    for at, (script, changes, number, place) in enumerate(cases[::2]):
        data = changed(script, changes)
        if len(data) <= LONG:
            yield refused(data, number, place, commands=[ALL, 0, 1][at % 3], room=[0, RECORD_WORDS, 13][at % 3])


# A stem, a move, a hint mask, a line, a counter mask and a close, at 28, 31, 34, 37, 40 and 43; five mask bytes, at 44
# and 45. From the move on the map has the stem's two edges.
FAULTY = script_of(
    FAMILY, 2100,
    (STEM, 100, 180), (MOVE, 0, 0), (HINT_MASK, 0, 1), (LINE, 1, 1), (COUNTER_MASK, 1, 2), (CLOSE,),
    masks=[0x80, 2, 3, 4, 5],
)
FAULTY_ROOM = 2 * RECORD_WORDS
# One fault of each row, in 01's order, its number and its place. A list without room comes behind all of them.
FAULTS = [
    (length(4 * len(FAULTY) + 1), BAD_SCRIPT, 0),
    (word(0, 2), BAD_SCRIPT, 0),
    (word(2, 7), BAD_SCRIPT, 2),
    (word(3, 65), BAD_SCRIPT, 3),
    (word(4, 29), BAD_SCRIPT, 4),
    (word(5, 19), BAD_SCRIPT, 5),
    (word(6, 45), BAD_SCRIPT, 6),
    (word(7, 9), BAD_SCRIPT, 7),
    (byte(183, 1), BAD_SCRIPT, 7),
    (word(1, 0), BAD_SCALE, 1),
    (word(12, 8), BAD_BLUES, 12),
    (word(13, -1), BAD_BLUES, 13),
    (word(15, 9), BAD_BLUES, 15),
    (word(14, 1), BAD_SCRIPT, 3),
    (word(28, 0), BAD_COMMAND, 28),
    (word(35, -1), BAD_MASK, 34),
    (word(37, 0), BAD_COMMAND, 37),
    (word(42, 5), BAD_MASK, 40),
    (word(43, 10), BAD_COMMAND, 43),
]


def order():
    """No fault, every fault alone, and every two of them, in lists with room and without."""
    for count in [2, 4, 5, 6, ALL]:
        yield Seeing(packed(FAULTY), count, FAULTY_ROOM, (OK, 0))
        yield refused(packed(FAULTY), LIST_ROOM, 0, count, FAULTY_ROOM - 1)
    for change, number, place in FAULTS:
        for count, room in [(2, FAULTY_ROOM), (2, 0), (ALL, FAULTY_ROOM - 1)]:
            yield refused(changed(FAULTY, [change]), number, place, count, room)
    for (first, number, place), (second, *_) in combinations(FAULTS, 2):
        yield refused(changed(FAULTY, [first, second]), number, place)
