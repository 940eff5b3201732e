"""Zones and capture (01, "Zones", with request 4 of 02).

Written from 01 and the readings of it alone; what the request adds, from the request and its
readings, with that step of the Rust read.
"""

from dataclasses import dataclass, replace

from .numbers import ONE, product, product_quotient, quotient, rounded, wrapped
from .stems import ABSENT

MOST_PAIRS = 7
MOST_OTHER_ZONES = 5
EM_BOX_GROUP = 1
EM_BOX_BOTTOM, EM_BOX_TOP = -120 * ONE, 880 * ONE
# The boost that a scale of 0 would have, and the most that any has.
FULL_BOOST, MOST_BOOST = 39322, 0x7FFF


@dataclass
class Params:
    """What a font gives. A list has pairs of a bottom and a top."""

    blue_scale: int = 0
    blue_shift: int = 0
    blue_fuzz: int = 0
    language_group: int = 0
    blues: list = ()
    other_blues: list = ()
    family_blues: list = ()
    family_other_blues: list = ()

    def lists(self):
        return [self.blues, self.other_blues, self.family_blues, self.family_other_blues]


@dataclass
class Zone:
    is_bottom: bool
    bottom: int
    top: int
    flat: int
    device_flat: int = 0


@dataclass
class State:
    """A font's parameters at a scale."""

    params: Params
    scale: int
    em_box: bool
    suppress: bool
    boost: int
    blue_scale: int
    zones: list


def has_em_box(params):
    if params.language_group != EM_BOX_GROUP:
        return False
    if len(params.blues) == 2:
        first, second = params.blues
        return max(first) < EM_BOX_BOTTOM and min(second) > EM_BOX_TOP
    return not params.blues


def height(bottom, top):
    return wrapped(top - bottom)


def kept(pairs):
    return [pair for pair in pairs if height(*pair) >= 0]


def bottom_zone(bottom, top):
    return Zone(True, bottom, top, flat=top)


def top_zone(bottom, top):
    return Zone(False, bottom, top, flat=bottom)


def zones_of(params):
    """Step 1."""
    blues, others = kept(params.blues), kept(params.other_blues[:MOST_OTHER_ZONES])
    bottoms = [bottom_zone(*pair) for pair in others]
    return [bottom_zone(*pair) for pair in blues[:1]] + [top_zone(*pair) for pair in blues[1:]] + bottoms


def counted(flat, edges, limit):
    """The distances of those edges that count, each with its edge; after a distance of 0 none is looked at."""
    found = []
    for edge in edges:
        distance = wrapped(abs(wrapped(flat - edge)))
        if distance < limit:
            found.append((distance, edge))
            if distance == 0:
                break
    return found


def family_edge(zone, params, limit):
    """Step 2, with request 4: after its search a bottom zone looks at the first family blue, however that ended."""
    if zone.is_bottom:
        found = counted(zone.flat, [top for _, top in params.family_other_blues], limit)
        found += counted(zone.flat, [top for _, top in params.family_blues[:1]], limit)
    else:
        found = counted(zone.flat, [bottom for bottom, _ in params.family_blues[1:]], limit)
    return min(found, key=lambda counting: counting[0])[1] if found else zone.flat


def clamped(blue_scale, zones):
    """Step 3."""
    greatest = max([height(zone.bottom, zone.top) for zone in zones], default=0)
    return min(blue_scale, quotient(ONE, greatest)) if greatest > 0 else blue_scale


def boost_at(scale, blue_scale):
    """Step 4: whether overshoot is suppressed, and the boost."""
    if scale >= blue_scale:
        return False, 0
    return True, min(wrapped(FULL_BOOST - product_quotient(FULL_BOOST, scale, blue_scale)), MOST_BOOST)


def device_flat(zone, scale, boost):
    """Step 5."""
    push = wrapped(-boost) if zone.is_bottom else boost
    return rounded(wrapped(product(zone.flat, scale) + push))


def state_of(params, scale):
    if has_em_box(params):
        return State(params, scale, True, False, 0, params.blue_scale, [])
    zones = zones_of(params)
    limit = quotient(ONE, scale)
    zones = [replace(zone, flat=family_edge(zone, params, limit)) for zone in zones]
    blue_scale = clamped(params.blue_scale, zones)
    suppress, boost = boost_at(scale, blue_scale)
    zones = [replace(zone, device_flat=device_flat(zone, scale, boost)) for zone in zones]
    return State(params, scale, False, suppress, boost, blue_scale, zones)


# Capture.


def holds(zone, fuzz, edge):
    low, high = wrapped(zone.bottom - fuzz), wrapped(zone.top + fuzz)
    return edge.kind != ABSENT and low <= edge.height <= high


def goal(state, zone, edge):
    """Where the edge that a zone holds goes."""
    if state.suppress:
        return zone.device_flat
    whole, shift = rounded(edge.device), state.params.blue_shift
    if zone.is_bottom and wrapped(zone.top - edge.height) >= shift:
        return min(whole, wrapped(zone.device_flat - ONE))
    if not zone.is_bottom and wrapped(edge.height - zone.bottom) >= shift:
        return max(whole, wrapped(zone.device_flat + ONE))
    return whole


def locked_by(edge, move):
    if edge.kind == ABSENT:
        return edge
    return replace(edge, device=wrapped(edge.device + move), locked=True)


def capture(state, bottom, top):
    """Whether a zone captures the edges, and the edges after that."""
    for zone in state.zones:
        edge = bottom if zone.is_bottom else top
        if holds(zone, state.params.blue_fuzz, edge):
            move = wrapped(goal(state, zone, edge) - edge.device)
            return True, locked_by(bottom, move), locked_by(top, move)
    return False, bottom, top
