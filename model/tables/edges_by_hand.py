"""Scripts whose maps can be worked by hand, and a table all of whose answers are.

At a scale of 1.0 a map without em box is easy: an edge on a whole height that nothing moves stands
there on the device too, and every scale is 1.0.
"""

from ..calls import (
    BAD_BLUES, BAD_COMMAND, BAD_MASK, BAD_SCALE, BAD_SCRIPT, CLEAR, COUNTER_MASK, FINISH, HINT_MASK, LINE, MOVE, STEM
)
from ..edges import LIST_ROOM
from ..numbers import ONE
from .edges_form import FAR, listing, made, nothing, refused
from .fonts import LETTER, PLAIN, font
from .form import packed
from .marked import WHOLE_SCRIPT
from .scripts_form import changed, length, word
from .scripts_good import script_of

# Kinds as a list has them.
GHOST_BOTTOM, GHOST_TOP, PAIR_BOTTOM, PAIR_TOP = range(4)


def whole(kind, height, stem, locked=0):
    """The words of an edge on a whole height at scale 1.0."""
    return [height * ONE, height * ONE, ONE, kind, stem, locked]


def pair(bottom, top, stem, locked=0):
    return whole(PAIR_BOTTOM, bottom, stem, locked) + whole(PAIR_TOP, top, stem, locked)


# 01's stem on the grid. The commands stand at 16, 19, 22, 25, 28, 31, 34 and 35: the map is built by the second, stays
# under a mask of all stems, is invalid after another mask, is built again by the line, and is cleared.
GRID_WORDS = script_of(
    PLAIN, 2048,
    (STEM, 16, 80), (MOVE, 0, 48), (HINT_MASK, 0, 12), (HINT_MASK, 12, 1), (COUNTER_MASK, 12, 1), (LINE, 0, 0),
    (CLEAR,), (LINE, 5, 5),
    masks=[0xFF] * 12 + [0x80],
)
GRID = packed(GRID_WORDS)
# Both edges are half a pixel up, at 1.0 and 3.0, with 64 units between them: 2/64 is 2048 in 16.16.
ON_GRID = [1048576, 65536, 2048, PAIR_BOTTOM, 0, 0, 5242880, 196608, 2048, PAIR_TOP, 0, 0]
LOCKED_ON_GRID = [1048576, 65536, 2048, PAIR_BOTTOM, 0, 1, 5242880, 196608, 2048, PAIR_TOP, 0, 1]
# Ghosts at 79 and 300, then with a mask for both; a line builds the map again.
GHOSTS = made(
    PLAIN, ONE, (STEM, 100, 79), (STEM, 300, 280), (MOVE, 0, 0), (HINT_MASK, 0, 1), (LINE, 1, 1), masks=[0xC0]
)
# Stems from above down: a pair, one whose ends are swapped, ghosts at 79 and 400, and one of no width.
FALLING = made(
    PLAIN, ONE, (STEM, 300, 340), (STEM, 200, 178), (STEM, 100, 79), (STEM, 400, 380), (STEM, 10, 10), (MOVE, 0, 0)
)
FALLEN = [
    *pair(10, 10, 4), *whole(GHOST_BOTTOM, 79, 2), *pair(178, 200, 1), *pair(300, 340, 0), *whole(GHOST_TOP, 400, 3)
]
# The first and the third stem are captured, by a bottom zone and by a top zone, which leave them where they are.
CAPTURED = made(LETTER, ONE, (STEM, 0, 40), (STEM, 100, 120), (STEM, 440, 480), (MOVE, 0, 0))
# A counter mask uses a stem: the map that follows has it locked, and the other one free.
COUNTED = made(PLAIN, ONE, (STEM, 10, 20), (STEM, 50, 60), (COUNTER_MASK, 0, 1), (MOVE, 0, 0), masks=[0x40])
# The mask leaves out the first of three stems.
CHOSEN = made(PLAIN, ONE, (STEM, 10, 20), (STEM, 50, 60), (STEM, 30, 40), (HINT_MASK, 0, 1), (MOVE, 0, 0), masks=[0x60])


def maps():
    """Every kind, locked and not."""
    yield listing(GRID, (2, 1, 0, 0), ON_GRID, commands=2)
    yield listing(GRID, (2, 1, 0, 2), LOCKED_ON_GRID, commands=6)
    yield listing(GHOSTS, (2, 0, 2, 0), whole(GHOST_BOTTOM, 79, 0) + whole(GHOST_TOP, 300, 1), commands=3)
    yield listing(GHOSTS, (2, 0, 2, 2), whole(GHOST_BOTTOM, 79, 0, 1) + whole(GHOST_TOP, 300, 1, 1))
    yield listing(FALLING, (8, 3, 2, 0), FALLEN)
    yield listing(CAPTURED, (6, 3, 0, 4), pair(0, 40, 0, 1) + pair(100, 120, 1) + pair(440, 480, 2, 1))
    yield listing(COUNTED, (4, 2, 0, 2), pair(10, 20, 0) + pair(50, 60, 1, 1))
    yield listing(CHOSEN, (4, 2, 0, 0), pair(30, 40, 2) + pair(50, 60, 1))
    # The bottom lies 8 units under the zone's flat edge, so that it goes a pixel under that, from -0.5 to -1.0. The top
    # goes with it, from 2.5 to 2.0: 3/48 is 4096 in 16.16.
    overshoot = made(LETTER, 4096, (STEM, -8, 40), (MOVE, 0, 0))
    words = [-524288, -65536, 4096, PAIR_BOTTOM, 0, 1, 2621440, 131072, 4096, PAIR_TOP, 0, 1]
    yield listing(overshoot, (2, 1, 0, 2), words)
    # Half of the width is cut to whole bits, so that the top lies a bit lower on the device, at 20 and two bits.
    words = [655360, 655360, 65536, PAIR_BOTTOM, 0, 0, 1310723, 1310722, 65536, PAIR_TOP, 0, 0]
    yield listing(made(PLAIN, ONE, (STEM, 10, 20 + 3 / ONE), (MOVE, 0, 0)), (2, 1, 0, 0), words)
    # The em box is a bit wider than -120 to 880 on either side; on the device it is -60.5 to 440.5.
    em_box = made(font(group=1), 32768, (MOVE, 0, 0))
    words = [-7864321, -3964928, 32834, GHOST_BOTTOM, 96, 1, 57671681, 28868608, 32768, GHOST_TOP, 96, 1]
    yield listing(em_box, (2, 0, 2, 2), words)


def no_edges():
    """Maps that are invalid, and valid ones without edges, in lists with room and without."""
    for room in [0, 5, 6, 13]:
        # A new map; the em box is not in it before it is built.
        yield nothing(GRID, commands=0, room=room)
        yield nothing(GRID, commands=1, room=room)
        yield nothing(made(font(group=1), ONE, (MOVE, 0, 0)), commands=0, room=room)
        # Another mask, a counter mask, and hints cleared.
        for count in [4, 5, 7]:
            yield nothing(GRID, commands=count, room=room)
        # Valid after the clear. The ghost at height 0 stands in the initial map alone.
        yield nothing(GRID, commands=8, room=room)
        yield nothing(packed(WHOLE_SCRIPT), room=room)
        # A mask of no stems.
        yield nothing(made(PLAIN, ONE, (STEM, 10, 20), (HINT_MASK, 0, 0), (LINE, 0, 0)), room=room)


def rooms():
    """A record too few, the very room, a rest of one to five words, and a record more."""
    for room in [0, 1, 5, 6, 7, 11]:
        yield refused(GRID, LIST_ROOM, 0, commands=2, room=room)
        yield refused(GRID, LIST_ROOM, 0, commands=6, room=room)
    for room in range(12, 19):
        yield listing(GRID, (2, 1, 0, 0), ON_GRID, commands=3, room=room)
    for room in [0, 42, 47]:
        yield refused(FALLING, LIST_ROOM, 0, room=room)
    for room in [48, 49, 53, 54, 60]:
        yield listing(FALLING, (8, 3, 2, 0), FALLEN, room=room)


def faults():
    """Of a script with a fault nothing is listed, though the map of two commands would be."""
    changes = {
        (BAD_SCRIPT, 0): word(0, 2), (BAD_SCALE, 1): word(1, 0), (BAD_BLUES, 12): word(12, 8),
        (BAD_COMMAND, 34): word(34, 10), (BAD_COMMAND, 35): word(35, 7), (BAD_MASK, 28): word(30, 2),
    }
    for (number, place), change in changes.items():
        for commands, room in [(0, 6), (2, 12), (2, 11)]:
            yield refused(changed(GRID_WORDS, [change]), number, place, commands, room)
    yield refused(b"", BAD_SCRIPT, 0)
    yield refused(changed(GRID_WORDS, [length(4 * len(GRID_WORDS) - 1)]), BAD_SCRIPT, 0, room=12)


def counts():
    """More commands than there are: after all of them."""
    few = made(PLAIN, ONE, (STEM, 10, 20), (MOVE, 0, 0), (FINISH,))
    for commands in [2, 3, 4, *FAR]:
        yield listing(few, (2, 1, 0, 0), pair(10, 20, 0), commands)
        yield refused(few, LIST_ROOM, 0, commands, room=6)


def by_hand():
    for cases in [maps, no_edges, rooms, faults, counts]:
        yield from cases()
