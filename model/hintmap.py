"""The map: mapping a height, inserting, adjusting and building (01, "The map").

Written by 01 and the readings of it, after this project's code and most of the Rust had been read.
"""

from dataclasses import dataclass, field, replace

from .numbers import HALF, fraction, half, midpoint, product, quotient, rounded, wrapped
from .stems import ABSENT, GHOST_BOTTOM, GHOST_TOP, MAX_HINTS, PAIR_BOTTOM, PAIR_TOP, Edge, edges_of
from .zones import EM_BOX_BOTTOM, EM_BOX_TOP, capture

# Room between the device heights of neighbours.
MIN_COUNTER = HALF
# Why edges are dropped.
TOP_UNDER_BOTTOM, NO_PLACE = "top under bottom", "no room"
EQUAL_HEIGHT, REACHES, INSIDE = "equal height", "reaches the edge after", "inside a stem"
BELOW, ABOVE = "below the edge before", "above the edge after"


@dataclass
class HintMap:
    scale: int
    edges: list = field(default_factory=list)


def mapped(hintmap, height):
    """A height on the device."""
    if not hintmap.edges:
        return product(height, hintmap.scale)
    below = [edge for edge in hintmap.edges if edge.height <= height]
    edge, scale = (below[-1], below[-1].scale) if below else (hintmap.edges[0], hintmap.scale)
    return wrapped(product(wrapped(height - edge.height), scale) + edge.device)


# Inserting.


def placed_again(new, initial, scale):
    """One edge by the initial map, or a pair around its mapped midpoint."""
    if len(new) == 1:
        return [replace(new[0], device=mapped(initial, new[0].height))]
    bottom, top = new
    middle = mapped(initial, midpoint(bottom.height, top.height))
    away = product(half(wrapped(top.height - bottom.height)), scale)
    return [replace(bottom, device=wrapped(middle - away)), replace(top, device=wrapped(middle + away))]


def bar(new, after):
    """Why the edge that stands at the place keeps others out, or nothing."""
    if after.height == new[0].height:
        return EQUAL_HEIGHT
    if len(new) == 2 and after.height <= new[1].height:
        return REACHES
    if after.kind == PAIR_TOP:
        return INSIDE
    return ""


def insert(hintmap, given, initial=None):
    """Puts the edges in that are not absent and answers "", or drops them and answers why."""
    new = [edge for edge in given if edge.kind != ABSENT]
    if new[-1].height < new[0].height:
        return TOP_UNDER_BOTTOM
    if len(hintmap.edges) + len(new) > MAX_HINTS:
        return NO_PLACE
    place = len([edge for edge in hintmap.edges if edge.height < new[0].height])
    before, after = hintmap.edges[:place], hintmap.edges[place:]
    why = bar(new, after[0]) if after else ""
    if why:
        return why
    if initial is not None and not new[0].locked:
        new = placed_again(new, initial, hintmap.scale)
    if before and new[0].device < before[-1].device:
        return BELOW
    if after and max(edge.device for edge in new) > after[0].device:
        return ABOVE
    hintmap.edges = before + new + after
    return ""


# Adjusting. A hint is the places of its lower and its upper edge, which are one for a single edge.


def hints_of(edges):
    lowers = [at for at, edge in enumerate(edges) if edge.kind != PAIR_TOP]
    return [(at, at + 1 if edges[at].kind == PAIR_BOTTOM else at) for at in lowers]


def room_up(edges, upper, move):
    above = edges[upper + 1 :]
    return not above or above[0].device >= wrapped(edges[upper].device + move + MIN_COUNTER)


def room_down(edges, lower, move):
    below = edges[:lower]
    return not below or below[-1].device <= wrapped(edges[lower].device - move - MIN_COUNTER)


def move_by(edges, hint, move):
    for at in sorted(set(hint)):
        edges[at].device = wrapped(edges[at].device + move)


def settle(edges, hint):
    """Moves an unlocked hint. Answers the missing move if the hint is to be noted, or nothing."""
    lower, upper = hint
    up = min(fraction(-edges[at].device) for at in hint)
    down = min(fraction(edges[at].device) for at in hint)
    can_rise, can_fall = room_up(edges, upper, up), room_down(edges, lower, down)
    if can_rise and can_fall:
        move = -down if down < up else up
    elif can_rise:
        move = up
    else:
        move = -down if can_fall else 0
    move_by(edges, hint, move)
    above = edges[upper + 1 :]
    noted = not can_rise and (not can_fall or up < down)
    return up - move if noted and above and not above[0].locked else None


def rescale(edges, at):
    """The edge before an edge gets its scale from the two."""
    if at == 0:
        return
    before, edge = edges[at - 1], edges[at]
    if before.height != edge.height:
        device, height = wrapped(edge.device - before.device), wrapped(edge.height - before.height)
        before.scale = quotient(device, height)


def adjust(hintmap):
    """Both passes. Answers for every note, newest first, whether its move was made."""
    edges = hintmap.edges = [replace(edge) for edge in hintmap.edges]
    notes = []
    for hint in hints_of(edges):
        if not edges[hint[0]].locked:
            missing = settle(edges, hint)
            if missing is not None:
                notes.append((hint, missing))
        for at in sorted(set(hint)):
            rescale(edges, at)
    answers = []
    for hint, missing in reversed(notes):
        answers.append(room_up(edges, hint[1], missing))
        if answers[-1]:
            move_by(edges, hint, missing)
    return answers


# Building.


def insert_ghost(hintmap, kind, height, device, initial):
    ghost = Edge(kind, height, device, True, hintmap.scale, synthetic=True)
    insert(hintmap, [ghost], initial)


def insert_em_box(hintmap, initial):
    bottom, top = EM_BOX_BOTTOM - 1, EM_BOX_TOP + 1
    low = wrapped(rounded(product(bottom, hintmap.scale)) - HALF)
    high = wrapped(rounded(product(top, hintmap.scale)) + HALF)
    insert_ghost(hintmap, GHOST_BOTTOM, bottom, low, initial)
    insert_ghost(hintmap, GHOST_TOP, top, high, initial)


def insert_locked(hintmap, state, active, stems, initial):
    """Em box, then locked or captured stems. Answers the numbers of the stems that are left."""
    if state.em_box:
        insert_em_box(hintmap, initial)
    left = []
    for number in active:
        bottom, top = edges_of(stems[number], hintmap.scale, number)
        captured = bottom.locked or top.locked
        if not captured:
            captured, bottom, top = capture(state, bottom, top)
        if captured:
            insert(hintmap, [bottom, top], initial)
        else:
            left.append(number)
    return left


def initial_map(state, stems):
    hintmap = HintMap(state.scale)
    insert_locked(hintmap, state, range(len(stems)), stems, None)
    heights = [edge.height for edge in hintmap.edges]
    if not heights or min(heights) > 0 or max(heights) < 0:
        insert_ghost(hintmap, GHOST_BOTTOM, 0, 0, None)
    adjust(hintmap)
    return hintmap


def save(hintmap, stems):
    """The stems of a map are used, and have their device heights, from then on."""
    for edge in hintmap.edges:
        if edge.synthetic:
            continue
        stem = stems[edge.number]
        stem.is_used = True
        if edge.kind in (GHOST_TOP, PAIR_TOP):
            stem.ds_max = edge.device
        else:
            stem.ds_min = edge.device


def built_map(state, mask, stems, initial):
    """The map, and what the second pass answered."""
    hintmap = HintMap(state.scale)
    active = [number for number in range(len(stems)) if mask[number]]
    for number in insert_locked(hintmap, state, active, stems, initial):
        insert(hintmap, edges_of(stems[number], state.scale, number), initial)
    answers = adjust(hintmap)
    save(hintmap, stems)
    return hintmap, answers
