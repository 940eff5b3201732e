"""Random sequences of calls that show a slip.

A slip is a method of a drawing with something wrong. A case is drawn again until a drawing with the
slip answers otherwise than the model, whose answer the row has.
"""

import random

from ..calls import DRAWING, LINED, NO_ROOM, OK, Drawing
from ..stems import MASK_BYTES, Stem, mask_of
from .calls_drawn import drawn_call, drawn_case, drawn_counter_mask, drawn_hint_mask, drawn_stem, some
from .calls_form import CLEARS, answers_of, finish, with_room


def ignores(drawing, *operands):
    pass


def takes_any_stem(drawing, low, high):
    drawing.stems.append(Stem(low, high))


def finish_builds(drawing):
    drawing.device(0, 0)
    return Drawing.finish(drawing)


def takes_any_mask(drawing, given):
    drawing.mask, drawing.map = mask_of(given), None


def cuts_masks(drawing, given):
    Drawing.hint_mask(drawing, given[:MASK_BYTES])


def maps_late(drawing):
    """The waiting line is mapped where it is written."""
    line, drawing.waiting = drawing.waiting, None
    return [] if line is None else [LINED, *drawing.device(*line[0])]


def sets_map(drawing, given):
    drawing.map = drawing.build(mask_of(given))


def sets_mask(drawing, given):
    drawing.build(mask_of(given))
    drawing.hint_mask(given)


def forgets_initial(drawing, given):
    drawing.build(mask_of(given))
    drawing.initial = None


def clears_path(drawing):
    Drawing.clear(drawing)
    drawing.start = drawing.waiting = None


def clears_all_but(name):
    def clears(drawing):
        kept = getattr(drawing, name)
        Drawing.clear(drawing)
        setattr(drawing, name, kept)

    return clears


def forgets_refusals(drawing, kind, operands, room):
    """A refused call does its work and only writes nothing."""
    after = drawing.copy()
    words = getattr(after, DRAWING[kind])(*operands)
    return (after, NO_ROOM, []) if len(words) > room else (after, OK, words)


def found(call, method, slip):
    """Cases with the call in their middle that the slip answers otherwise."""
    slipped = type("Slipped", (Drawing,), {method: slip})
    for _ in range(5):
        shown = False
        while not shown:
            before = some(1, 3, drawn_stem) + some(0, 2, drawn_stem, drawn_hint_mask, drawn_call, drawn_call)
            after = some(0, 2, drawn_stem, drawn_hint_mask, drawn_call) + some(2, 2, drawn_call)
            case = drawn_case([*before, call(), *after])
            shown = answers_of(*case, slipped) != answers_of(*case)
        yield case


def stems():
    for slip in [ignores, takes_any_stem]:
        yield from found(drawn_stem, "stem", slip)
    yield from found(finish, "finish", finish_builds)


def masks():
    for slip in [ignores, takes_any_mask, cuts_masks]:
        yield from found(drawn_hint_mask, "hint_mask", slip)
    yield from found(drawn_hint_mask, "waited", maps_late)


def counter_masks():
    for slip in [ignores, sets_map, sets_mask, forgets_initial]:
        yield from found(drawn_counter_mask, "counter_mask", slip)


def clears():
    for slip in [ignores, clears_path, *map(clears_all_but, ["stems", "mask", "initial", "map"])]:
        yield from found(lambda: CLEARS, "clear", slip)


def refusals():
    for _ in range(4):
        yield from found(lambda: with_room(drawn_call(), random.randrange(10)), "drawn", forgets_refusals)
