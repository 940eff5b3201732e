"""Scripts that are read back, and written again.

They are all that the tables of scripts have and 01 accepts, but for long ones, and every way in
which a few masks can lie on a few bytes. The numbers and places of refusals stand by hand; the rest
comes from the model.
"""

import random
from itertools import product

from ..calls import BAD_BLUES, BAD_COMMAND, BAD_MASK, BAD_SCALE, BAD_SCRIPT, COUNTER_MASK, HINT_MASK, NO_ROOM, OK
from ..script import MOST_BYTES
from ..stems import MASK_BYTES
from ..writer import read_back
from . import scripts, scripts_refused
from .fonts import PLAIN
from .form import packed
from .scripts_form import changed, length, word
from .scripts_good import EMPTY, FAULTY, GOOD, LAST, LETTER, MASKED, READINGS, WHOLE, script_of
from .scripts_refused import FAULTS
from .writer_form import HELD_BYTES, HELD_WORDS, Reading, Writing
from .writer_refused import BARE, MASK_COMMAND, some_bytes

# Longer scripts than this are read here only where they are named.
LONG = 1000


def accepted(script):
    number, _, _ = read_back(script, HELD_WORDS, HELD_BYTES)
    return number == OK


def tried():
    """The scripts of the tables of scripts, in turn."""
    for script in [*GOOD, *READINGS]:
        yield packed(script)
    random.seed(scripts.SEED)
    drawn = [scripts.rooms, scripts.glyphs, scripts.damage]
    refusals = [scripts_refused.lengths, scripts_refused.header_words, scripts_refused.padding]
    refusals += [scripts_refused.parameters, scripts_refused.kinds, scripts_refused.cuts, scripts_refused.masks]
    for cases in [*drawn, *refusals]:
        for script, changes, *_ in cases():
            yield changed(script, changes)


def stored_scripts():
    """Those that 01 accepts, each once."""
    return [script for script in dict.fromkeys(tried()) if accepted(script)]


def masked(count, masks):
    """A script of so many mask bytes, and of masks by their starts and lengths: a hint mask, a counter mask, and on."""
    commands = [((HINT_MASK, COUNTER_MASK)[at % 2], *mask) for at, mask in enumerate(masks)]
    return packed(script_of(PLAIN, 2048, *commands, masks=some_bytes(count)))


def all_masks(count, number):
    """Every way in which so many masks can lie on so many bytes."""
    lying = [(start, size) for start in range(count + 1) for size in range(count + 1 - start)]
    return [masked(count, masks) for masks in product(lying, repeat=number)]


def few_masks():
    """No mask, one, or two on up to two bytes, and one on three."""
    for count in range(3):
        for number in range(3):
            yield from all_masks(count, number)
    yield from all_masks(3, 1)


def more_masks():
    """Masks of other sorts: over 12 bytes, three of them, in another order, overlapping, with a byte between them."""
    yield masked(26, [(0, 13), (13, 13)])
    yield masked(26, [(13, 13), (0, 13)])
    yield masked(25, [(0, 12), (12, 13), (25, 0)])
    yield masked(25, [(0, 13), (12, 13)])
    yield masked(26, [(0, 12), (13, 13)])
    yield masked(5, [(0, 1), (1, 1), (2, 3)])
    yield masked(5, [(0, 1), (2, 3), (1, 1)])
    yield masked(5, [(0, 2), (2, 0), (2, 3)])
    yield masked(5, [(0, 2), (0, 0), (2, 3)])
    yield masked(5, [(0, 2), (5, 0), (2, 3)])
    yield masked(5, [(0, 2), (2, 3), (0, 5)])
    yield masked(300, [(0, 100), (100, 0), (100, 200)])


def short_scripts():
    made_here = [*few_masks(), *more_masks()]
    return [script for script in [*stored_scripts(), *made_here] if len(script) <= LONG]


def longest():
    """A script of the most bytes: masks of 12 bytes, and as many bytes of commands."""
    number = (MOST_BYTES - BARE) // (MASK_COMMAND + MASK_BYTES)
    script = masked(MASK_BYTES * number, [(MASK_BYTES * at, MASK_BYTES) for at in range(number)])
    assert len(script) == MOST_BYTES
    return script


def given_back(script):
    """What an accepted script was written from."""
    _, _, given = read_back(script, HELD_WORDS, HELD_BYTES)
    return given


def again():
    """Each script written again into a buffer of its own length."""
    for script in short_scripts():
        yield Writing(given_back(script), len(script))


def with_room(script, more_words=0, more_bytes=0):
    """A script that is read with so much more room than is needed."""
    given = given_back(script)
    return Reading(script, len(given.commands) + more_words, len(given.masks) + more_bytes, (OK, 0, given))


def read():
    """Each script with just enough room."""
    for script in [*short_scripts(), longest()]:
        yield with_room(script)


def of(script, changes, *said, room_words=24, room_bytes=16):
    """A changed script, and the number and the place with which it is refused."""
    return Reading(changed(script, changes), room_words, room_bytes, (*said, None))


def refused():
    """A script of each refusal, with room and without; then rooms too small."""
    faults = [(changes, number, place) for changes, _, number, place in FAULTS if number != NO_ROOM]
    for fault in faults:
        yield of(FAULTY, *fault)
    # The room is looked at last.
    for fault in faults[::2]:
        yield of(FAULTY, *fault, room_words=0, room_bytes=0)
    for count in [0, 3, 28, 31, 33]:
        yield of(WHOLE, [length(count)], BAD_SCRIPT, 0)
    yield of(WHOLE, [length(108)], BAD_SCRIPT, 7)
    yield of(LETTER, [word(1, -1)], BAD_SCALE, 1)
    yield of(LETTER, [word(14, 8)], BAD_BLUES, 14)
    yield of(LETTER, [word(13, 0)], BAD_SCRIPT, 3)
    yield of(LETTER, [word(69, 10)], BAD_COMMAND, 69)
    yield of(LETTER, [word(69, COUNTER_MASK)], BAD_COMMAND, 69)
    yield of(LETTER, [word(55, 3)], BAD_MASK, 53)
    # The second mask of two is bad in its start, in its length, and in their sum.
    for start, count in [(-1, 1), (0, -1), (2, 1)]:
        yield Reading(masked(2, [(0, 2), (start, count)]), 24, 16, (BAD_MASK, 19, None))
    yield from short_of_room()


def short_of_room():
    """FAULTY has ten command words, eight of them when both starts are left out, and five mask bytes."""
    for room_words, room_bytes in [(7, 5), (7, 6), (7, 100), (7, 4), (7, 0), (0, 0), (0, 5), (1, 4)]:
        yield of(FAULTY, [], NO_ROOM, 5, room_words=room_words, room_bytes=room_bytes)
    for room_words, room_bytes in [(8, 4), (8, 3), (8, 0), (9, 4), (10, 4), (10, 0), (24, 4)]:
        yield of(FAULTY, [], NO_ROOM, 7, room_words=room_words, room_bytes=room_bytes)
    # No masks, no commands, neither.
    yield of(WHOLE, [], NO_ROOM, 5, room_words=9)
    yield of(WHOLE, [], NO_ROOM, 5, room_words=9, room_bytes=0)
    yield with_room(packed(WHOLE))
    alone = [length(72), word(7, 6)]
    yield of(EMPTY, alone, NO_ROOM, 7, room_words=0, room_bytes=5)
    yield of(EMPTY, alone, NO_ROOM, 7, room_words=3, room_bytes=0)
    yield with_room(changed(EMPTY, alone))
    yield with_room(packed(EMPTY))
    # A mask of no bytes has two words here and three in its script.
    yield of(LAST[HINT_MASK], [], NO_ROOM, 5, room_words=2, room_bytes=0)
    yield with_room(packed(LAST[HINT_MASK]))


def rooms():
    """More room than is needed: the rest of it stands."""
    for script in [*map(packed, [EMPTY, WHOLE, FAULTY, LETTER, MASKED]), masked(13, [(0, 13)])]:
        for more_words, more_bytes in [(1, 0), (0, 1), (1, 1), (2, 3), (0, 7), (33, 50)]:
            yield with_room(script, more_words, more_bytes)
