"""Sequences of calls that are worked by hand from 01's text.

Each call with records has its words beside it, or None where it is refused; no word comes from a
program. The model is compared with them.
"""

from ..calls import BAD_BLUES, BAD_SCALE, HINTING, LINE, MOVE, NO_ROOM, OK, opened
from ..numbers import ONE
from .calls_form import (
    ALL, AMPLE, CLEARS, CLOSES, answers_of, counter_mask, curve, finish, hint_mask, line, move, row_of, stem
)
from .fonts import PLAIN, font
from .form import agree


def whole_case():
    """The whole case of 01, "The script"."""
    calls = [(move(10, 20), [1, 327680, 655360]), (line(30, 20), [])]
    calls += [(line(10, 20), [2, 983040, 655360]), (finish(), [4, 5])]
    yield PLAIN, ONE // 2, OK, calls


def paths():
    # A move closes: the waiting line is not at the start and comes; then one is, and does not.
    calls = [(move(1, 2), [1, 65536, 131072]), (line(3, 2), [])]
    calls += [(move(5, 6), [2, 196608, 131072, 4, 1, 327680, 393216]), (line(5, 6), [])]
    calls += [(move(1, 2), [4, 1, 65536, 131072]), (line(1, 3), [])]
    calls += [(finish(), [2, 65536, 196608, 4, 5])]
    yield PLAIN, ONE, OK, calls
    # The character points differ by a bit, which the output clears: the line comes.
    calls = [(move(1, 2), [1, 65536, 131072]), ((LINE, (65537, 131072), AMPLE), [])]
    calls += [(finish(), [2, 65536, 131072, 4, 5])]
    yield PLAIN, ONE, OK, calls
    # Without a start a move drops the waiting line, a line and a curve write it, finish drops it.
    calls = [(line(1, 2), []), (move(3, 4), [1, 196608, 262144]), (finish(), [4, 5])]
    calls += [(line(1, 2), []), (line(3, 4), [2, 65536, 131072])]
    calls += [(curve(5, 6, 7, 8, 9, 10), [2, 196608, 262144, 3, 327680, 393216, 458752, 524288, 589824, 655360])]
    calls += [(line(1, 2), []), (CLOSES, None), (finish(), [5])]
    yield PLAIN, ONE, OK, calls
    # Finish twice, on a new drawing and after a path; close does nothing; calls after finish run.
    calls = [(finish(), [5]), (finish(), [5]), (move(0, 0), [1, 0, 0]), (CLOSES, None), (finish(), [4, 5])]
    calls += [(finish(), [5]), (move(-1, -2), [1, -65536, -131072]), (finish(), [4, 5])]
    yield PLAIN, ONE, OK, calls
    # The low 10 bits are cleared, so that a number below 0 goes away from it.
    calls = [((MOVE, (1023, -1), AMPLE), [1, 0, -1024]), ((MOVE, (1025, -1025), AMPLE), [4, 1, 1024, -2048])]
    yield PLAIN, ONE, OK, calls


def maps():
    # 01's starred stem: 16 to 80 at scale 1/32 stand at 1.0 and 3.0; 0 maps to 0.5 and 48 to 2.0.
    calls = [(stem(16, 80), None), (move(0, 0), [1, 0, 32768]), (line(64, 48), [])]
    calls += [(line(96, 16), [2, 131072, 131072])]
    calls += [(curve(32, 80, 64, 112, 96, 144), [2, 196608, 65536, 3, 65536, 196608, 131072, 262144, 196608, 327680])]
    yield PLAIN, 2048, OK, [*calls, (finish(), [4, 5])]
    # Masks between points: with no stem 48 maps to 1.5. A line keeps the point of its own call.
    calls = [(stem(16, 80), None), (move(0, 48), [1, 0, 131072]), (hint_mask(), None), (line(32, 48), [])]
    calls += [(hint_mask(0x80), None), (line(64, 48), [2, 65536, 98304]), (hint_mask(), None)]
    yield PLAIN, 2048, OK, [*calls, (finish(), [2, 131072, 131072, 4, 5])]


def counter_masks():
    # Stems 16 to 80 and 32 to 96 can't both enter. The first does, and 48 maps to 2.0; a counter
    # mask places the second first, at 1.0 and 3.0, and 48 maps to 1.5.
    stems = [(stem(16, 80), None), (stem(32, 96), None)]
    yield PLAIN, 2048, OK, [*stems, (move(0, 48), [1, 0, 131072])]
    yield PLAIN, 2048, OK, [*stems, (counter_mask(0x40), None), (move(0, 48), [1, 0, 98304])]
    # A counter mask leaves the current map: while it is invalid a stem still enters, and it stays
    # valid. The second stem stands at 4.0 and 6.0, since the first has moved up to 3.0.
    calls = [(stem(16, 80), None), (counter_mask(), None), (stem(112, 176), None)]
    calls += [(move(0, 144), [1, 0, 327680]), (counter_mask(0x40), None), (stem(0, 8), None)]
    yield PLAIN, 2048, OK, [*calls, (line(0, 144), []), (finish(), [4, 5])]


def masks_and_clears():
    # While the map is valid stems are ignored, and equal masks leave it so: twelve bytes of 255,
    # and thirteen of any kind. A mask that differs in bit 95 makes it invalid.
    calls = [(move(0, 48), [1, 0, 98304]), (stem(16, 80), None), (line(32, 48), []), (hint_mask(*ALL), None)]
    calls += [(stem(16, 80), None), (hint_mask(*[0] * 13), None), (stem(16, 80), None)]
    calls += [(line(64, 48), [2, 65536, 98304]), (hint_mask(*[255] * 11, 254), None)]
    calls += [(line(96, 48), [2, 131072, 98304]), (hint_mask(0x80), None), (stem(16, 80), None)]
    calls += [(line(32, 48), [2, 196608, 98304]), (finish(), [2, 65536, 131072, 4, 5])]
    yield PLAIN, 2048, OK, calls
    # Clearing in an open path keeps the start and the waiting line, and drops stem and mask.
    calls = [(stem(16, 80), None), (hint_mask(0x80), None), (move(0, 48), [1, 0, 131072]), (line(32, 48), [])]
    calls += [(CLEARS, None), (line(32, 0), [2, 65536, 131072]), (CLEARS, None), (stem(300, 310), None)]
    calls += [(stem(16, 80), None), (line(0, 48), [2, 65536, 0]), (finish(), [4, 5])]
    yield PLAIN, 2048, OK, calls


def stems():
    # A zone from -10 to 0 takes the stem's bottom at -5 to 0.0; 59 stands at 2.0, so that 27 maps
    # to 1.0 and 0 to 5/32.
    calls = [(stem(-5, 59), None), (move(0, 27), [1, 0, 65536]), (move(0, 0), [4, 1, 0, 10240])]
    yield font([(-10, 0)]), 2048, OK, calls
    # 96 stems from 1000 to 1010: the first stands at 31.0, the others are dropped, and 48 maps to
    # 1.25. A 97th is ignored; as the 96th it stands at 1.0 and 3.0.
    same = [(stem(1000, 1010), None)] * 95
    yield PLAIN, 2048, OK, [*same, (stem(1000, 1010), None), (stem(16, 80), None), (move(0, 48), [1, 0, 81920])]
    yield PLAIN, 2048, OK, [*same, (stem(16, 80), None), (move(0, 48), [1, 0, 131072])]


def rooms():
    # A refused move builds no map, so that the stem after it enters.
    calls = [(move(0, 48, room=2), None), (stem(16, 80), None), (move(0, 48, room=3), [1, 0, 131072])]
    # A line that waits needs no room; the next one needs 3 words, a curve 10.
    calls += [(line(32, 48, room=0), []), (line(64, 48, room=0), None), (line(64, 48, room=2), None)]
    calls += [(curve(1, 2, 3, 4, 5, 6, room=9), None), (line(64, 48, room=3), [2, 65536, 131072])]
    calls += [(finish(room=4), None), (finish(room=5), [2, 131072, 131072, 4, 5])]
    yield PLAIN, 2048, OK, [*calls, (finish(room=0), None), (finish(room=1), [5])]
    # A move after a line needs 7 words, and a curve with no line before it 7.
    calls = [(move(1, 1), [1, 65536, 65536]), (line(2, 2), []), (move(3, 3, room=6), None)]
    calls += [(move(3, 3, room=7), [2, 131072, 131072, 4, 1, 196608, 196608])]
    calls += [(curve(0, 0, 1, 1, 2, 2, room=6), None)]
    calls += [(curve(0, 0, 1, 1, 2, 2, room=7), [3, 0, 0, 65536, 65536, 131072, 131072]), (finish(room=1), None)]
    yield PLAIN, ONE, OK, [*calls, (finish(room=2), [4, 5])]
    # A line that waits with no room has its map built: the stem after it is ignored.
    calls = [(line(0, 48, room=0), []), (stem(16, 80), None), (line(0, 48, room=3), [2, 0, 98304])]
    yield PLAIN, 2048, OK, [*calls, (finish(room=1), [5])]


def openings():
    # Beside a refusal stands a drawing of scale 1.0 and no zones. A stem from 0.25 to 10.25 stands
    # at 0.0 and 10.0 there, so that 5.25 maps to 5.0.
    calls = [((MOVE, (99327, -1), AMPLE), [1, 98304, -1024]), (CLEARS, None), (stem(0.25, 10.25), None)]
    calls += [(move(0, 5.25, room=3), None), (move(0, 5.25, room=4), [4, 1, 0, 327680]), (finish(), [4, 5])]
    eight = [(-10, 11)] * 8
    yield font([(-10, 11)]), 0, BAD_SCALE, calls
    yield font(eight), -1, BAD_SCALE, calls
    yield font(eight), 2048, BAD_BLUES, calls
    yield font([(-10, 11)], eight), 2048, BAD_BLUES, calls


def answer(call, words):
    """What a call answers: its number and the words, or nothing."""
    if call[0] in HINTING:
        return None
    return [NO_ROOM, []] if words is None else [OK, words]


def worked_row(params, scale, number, steps):
    calls, answers = [call for call, _ in steps], [answer(*step) for step in steps]
    agree(number, opened(params, scale)[0], (params, scale))
    agree(answers, answers_of(params, scale, calls), calls)
    return row_of(params, scale, number, calls, answers)


def table():
    parts = [whole_case, paths, maps, counter_masks, masks_and_clears, stems, rooms, openings]
    return [worked_row(*case) for cases in parts for case in cases()]
