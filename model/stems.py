"""Masks, stems and their edges (01, "Stems and masks").

Written from 01 and the readings of it alone.
"""

from dataclasses import dataclass

from .numbers import ONE, product, wrapped

# So many stems has a drawing at most, and so many edges a map.
MAX_HINTS = 96
MASK_BYTES = MAX_HINTS // 8
GHOST_BOTTOM_WIDTH, GHOST_TOP_WIDTH = -21 * ONE, -20 * ONE
ABSENT, GHOST_BOTTOM, GHOST_TOP, PAIR_BOTTOM, PAIR_TOP = range(5)


# Masks, as lists of bits, that of stem 0 first.


ALL_ACTIVE = [1] * MAX_HINTS


def mask_of(given):
    """The mask that some bytes give."""
    if len(given) > MASK_BYTES:
        return ALL_ACTIVE
    bits = [int(bit) for byte in given for bit in f"{byte:08b}"]
    return bits + [0] * (MAX_HINTS - len(bits))


def without(mask, number):
    """A mask in which a stem is not active."""
    return mask[:number] + [0] + mask[number + 1 :]


def mask_bytes(mask):
    text = "".join(map(str, mask))
    return [int(text[at : at + 8], 2) for at in range(0, MAX_HINTS, 8)]


# Stems and their edges.


@dataclass
class Stem:
    min: int
    max: int
    is_used: bool = False
    ds_min: int = 0
    ds_max: int = 0


@dataclass
class Edge:
    """An edge at a height, its height on the device, the scale above it, and its stem's number."""

    kind: int
    height: int
    device: int
    locked: bool
    scale: int
    number: int = 0
    synthetic: bool = False


def shape(stem):
    """Kind and height of the bottom edge, and of the top edge. An absent one stands at 0."""
    width = wrapped(stem.max - stem.min)
    if width == GHOST_BOTTOM_WIDTH:
        return (GHOST_BOTTOM, stem.max), (ABSENT, 0)
    if width == GHOST_TOP_WIDTH:
        return (ABSENT, 0), (GHOST_TOP, stem.min)
    if width < 0:
        return (PAIR_BOTTOM, stem.max), (PAIR_TOP, stem.min)
    return (PAIR_BOTTOM, stem.min), (PAIR_TOP, stem.max)


def edges_of(stem, scale, number=0):
    """The bottom edge and the top edge."""

    def edge(kind, height, saved):
        if stem.is_used and kind != ABSENT:
            return Edge(kind, height, saved, True, scale, number)
        return Edge(kind, height, product(height, scale), False, scale, number)

    bottom, top = shape(stem)
    return edge(*bottom, stem.ds_min), edge(*top, stem.ds_max)
