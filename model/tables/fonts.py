"""Fonts and stems that several tables are made of. All of them are chosen by hand."""

from dataclasses import replace

from ..numbers import bits, wrapped
from ..stems import GHOST_BOTTOM_WIDTH, GHOST_TOP_WIDTH
from ..zones import Params


def units(*pairs):
    """Pairs in whole units, as pairs of bits."""
    return [bits(*pair) for pair in pairs]


def font(blues=(), others=(), family=(), family_others=(), group=0, scale=2597, shift=7, fuzz=1):
    """Parameters of pairs, a shift and a fuzz in whole units."""
    lists = [units(*pairs) for pairs in (blues, others, family, family_others)]
    return Params(scale, *bits(shift, fuzz), group, *lists)


def in_bits(*lists, **fields):
    """Parameters of pairs in bits: blues, other blues, family blues, family other blues."""
    names = ["blues", "other_blues", "family_blues", "family_other_blues"]
    return replace(font(**fields), **{name: list(pairs) for name, pairs in zip(names, lists)})


def param_words(params):
    """The four numbers, the counts of the four lists, and their pairs."""
    lists = params.lists()
    numbers = [params.blue_scale, params.blue_shift, params.blue_fuzz, params.language_group]
    return numbers + [len(pairs) for pairs in lists] + [end for pairs in lists for pair in pairs for end in pair]


def seven(rise, height=9):
    """Pairs for a full list."""
    return [(low + rise, low + rise + height) for low in range(-20, 600, 100)]


LETTER_BLUES = [(-10, 0), (480, 492)]
EM_BOX_BLUES = [(-122, -121), (881, 890)]
PLAIN = font()
LETTER = font(LETTER_BLUES)
FAMILY = font(LETTER_BLUES, [(-220, -210)], [(-12, 1), (482, 494)], [(-222, -208)], scale=2000)
EM_BOX = font(EM_BOX_BLUES, group=1)
FULL = font(*[seven(rise) for rise in range(4)])


def ghost_bottom(height):
    """The ends of a bottom ghost at a height."""
    return wrapped(height - GHOST_BOTTOM_WIDTH), height


def ghost_top(height):
    return height, wrapped(height + GHOST_TOP_WIDTH)
