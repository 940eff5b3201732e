"""Maps of every sort that are listed, and lists of every length.

Numbers, places and counts stand by hand beside the cases but for some of the em box; so do all
words of full maps. The other words come from the model.
"""

from ..calls import COUNTER_MASK, HINT_MASK, LINE, MOVE, OK, STEM
from ..edges import LIST_ROOM, RECORD_WORDS, Summary
from ..numbers import HIGH, ONE
from ..stems import MAX_HINTS
from .edges_by_hand import CAPTURED, FALLING, GHOST_BOTTOM, GHOSTS, pair, whole
from .edges_form import ALL, FILLED_LIST, HELD_LIST, Seeing, answered, listing, made, refused
from .fonts import EM_BOX, FAMILY, LETTER, PLAIN, font
from .form import packed
from .scripts_good import BOX, LETTER as LETTER_SCRIPT

AMPLE = 6 * RECORD_WORDS


def counted(script, counts, commands=ALL, room=AMPLE):
    """So many edges, pairs, ghosts and locked edges are listed."""
    return Seeing(script, commands, room, (OK, 0, Summary(*counts)))


# Kinds.


def shapes(bottom, top):
    """The ends of stems with a lowest and a highest edge there; whether they have a bottom and a top."""
    yield (bottom, top), True, True
    yield (top, bottom), True, True
    yield (bottom, bottom), True, True
    yield (bottom + 21, bottom), True, False
    yield (top, top - 20), False, True


def shape_counts(has_bottom, has_top):
    """Edges, pairs and ghosts of a stem."""
    return (2, 1, 0) if has_bottom and has_top else (1, 0, 1)


def kinds():
    """Stems of each shape: free, used by a map, used by a counter mask, and in a zone."""
    for scale in [1000, 2048, 4096, 3 * ONE // 2]:
        for ends, *has in shapes(100, 141):
            edges, pairs, ghosts = shape_counts(*has)
            stem = STEM, *ends
            again = made(PLAIN, scale, stem, (MOVE, 0, 0), (HINT_MASK, 0, 1), (LINE, 9, 9), masks=[0x80])
            yield counted(again, (edges, pairs, ghosts, 0), commands=2)
            yield counted(again, (edges, pairs, ghosts, edges))
            used = made(PLAIN, scale, stem, (COUNTER_MASK, 0, 1), (MOVE, 0, 0), masks=[0x80])
            yield counted(used, (edges, pairs, ghosts, edges))
        yield from in_zones(scale)


def in_zones(scale):
    """A bottom zone captures what has a bottom in it, a top zone what has a top."""
    for at, (ends, *has) in enumerate(shapes(-4, 36)):
        edges, pairs, ghosts = shape_counts(*has)
        # The top ghost is at 36.
        yield counted(made(LETTER, scale, (STEM, *ends), (MOVE, 0, 0)), (edges, pairs, ghosts, edges if at < 4 else 0))
    for at, (ends, *has) in enumerate(shapes(450, 488)):
        edges, pairs, ghosts = shape_counts(*has)
        # Both edges of the stem of no width, and the bottom ghost, are at 450.
        locked = 0 if at in (2, 3) else edges
        yield counted(made(LETTER, scale, (STEM, *ends), (MOVE, 0, 0)), (edges, pairs, ghosts, locked))


# The em box.


def em_boxes():
    """The em box with stems in it and out of it, at many scales; then fonts that have none."""
    stems = [(STEM, -200, -150), (STEM, 100, 180), (STEM, 420, 399), (STEM, 600, 580), (STEM, 900, 960)]
    for params in [font(group=1), EM_BOX]:
        for scale in [700, 2048, 32768, ONE, 3 * ONE // 2]:
            yield counted(made(params, scale, (MOVE, 0, 0)), (2, 0, 2, 2))
            # A pair below, one inside, both ghosts inside, and a pair above.
            script = made(params, scale, *stems, (MOVE, 0, 0), (HINT_MASK, 0, 1), (LINE, 1, 1), masks=[0x70])
            yield Seeing(script, 6, 10 * RECORD_WORDS)
            yield Seeing(script, ALL, 10 * RECORD_WORDS)
            yield counted(script, (0, 0, 0, 0), commands=7)
        # All on one height of the device; a top that wraps under the bottom; the greatest scale.
        for scale in [1, 40 * ONE, HIGH]:
            yield Seeing(made(params, scale, (MOVE, 0, 0)), ALL, AMPLE)
            yield Seeing(made(params, scale, *stems, (MOVE, 0, 0)), ALL, 12 * RECORD_WORDS)
    # A stem on the em box's own height does not enter; one beside it may.
    for bit in [-2, -1, 0, 1]:
        height = -120 + bit / ONE
        yield Seeing(made(font(group=1), 32768, (STEM, height + 21, height), (MOVE, 0, 0)), ALL, AMPLE)
    for group, blues in [(0, []), (2, []), (1, [(-122, -121)]), (1, [(-122, -119), (881, 890)])]:
        yield counted(made(font(blues, group=group), 2048, (STEM, 100, 180), (MOVE, 0, 0)), (2, 1, 0, 0))


# Full maps.


def ghosts_up(count):
    """Stems that are bottom ghosts at 10, 20 and so on."""
    return [(STEM, height + 21, height) for height in range(10, 10 * count + 10, 10)]


def full_maps():
    """Maps of 96 edges and of one fewer."""
    every = [word for at in range(MAX_HINTS) for word in whole(GHOST_BOTTOM, 10 * at + 10, at)]
    most = len(every)
    full = made(PLAIN, ONE, *ghosts_up(MAX_HINTS), (MOVE, 0, 0))
    for room in [0, RECORD_WORDS, most - 6, most - 1]:
        yield refused(full, LIST_ROOM, 0, room=room)
    for room in [most, most + 1, most + 5, most + 6, HELD_LIST]:
        yield listing(full, (96, 0, 96, 0), every, room=room)
    # A 97th stem is none; neither is a stem behind the build.
    more = made(PLAIN, ONE, *ghosts_up(MAX_HINTS), (STEM, 2000, 2010), (MOVE, 0, 0), (STEM, 3000, 3010), (LINE, 0, 0))
    yield listing(more, (96, 0, 96, 0), every)
    # The same from above down.
    down = made(PLAIN, ONE, *ghosts_up(MAX_HINTS)[::-1], (MOVE, 0, 0))
    words = [word for at in range(MAX_HINTS) for word in whole(GHOST_BOTTOM, 10 * at + 10, MAX_HINTS - 1 - at)]
    yield listing(down, (96, 0, 96, 0), words)
    # 95 ghosts and a pair, for which there is no room.
    odd = made(PLAIN, ONE, *ghosts_up(MAX_HINTS - 1), (STEM, 2000, 2010), (MOVE, 0, 0))
    yield listing(odd, (95, 0, 95, 0), every[:-6])
    yield refused(odd, LIST_ROOM, 0, room=most - 7)
    # 94 ghosts and the pair.
    even = made(PLAIN, ONE, *ghosts_up(MAX_HINTS - 2), (STEM, 2000, 2010), (MOVE, 0, 0))
    yield listing(even, (96, 1, 94, 0), every[:-12] + pair(2000, 2010, 94))
    # 48 pairs, and more.
    pairs = [(STEM, 20 * at, 20 * at + 10) for at in range(60)]
    words = [word for at in range(48) for word in pair(20 * at, 20 * at + 10, at)]
    yield listing(made(PLAIN, ONE, *pairs[:48], (MOVE, 0, 0)), (96, 48, 0, 0), words)
    yield listing(made(PLAIN, ONE, *pairs, (MOVE, 0, 0)), (96, 48, 0, 0), words, room=most + 3)
    # With the em box 94 ghosts enter.
    boxed = made(font(group=1), ONE, *[(STEM, at + 21, at) for at in range(0, 5 * MAX_HINTS, 5)], (MOVE, 0, 0))
    yield counted(boxed, (96, 0, 96, 2), room=most)
    yield refused(boxed, LIST_ROOM, 0, room=most - 1)


# Rooms.


def rooms():
    """Every list from none to a record past the last."""
    scripts = [
        (FALLING, ALL), (GHOSTS, 3), (CAPTURED, ALL), (packed(BOX), ALL), (packed(LETTER_SCRIPT), 7),
        (made(FAMILY, 2100, (STEM, -3, 41), (STEM, 130, 109), (MOVE, 0, 0)), ALL),
    ]
    for script, commands in scripts:
        _, _, counts, words = answered(script, commands, HELD_LIST)
        assert words and counts.edges * RECORD_WORDS == len(words)
        for room in range(len(words)):
            yield refused(script, LIST_ROOM, 0, commands, room)
        for room in range(len(words), len(words) + RECORD_WORDS + 1):
            yield counted(script, counts, commands, room)


# Lists of twelve records.


def of_twelve():
    """Maps with none to 14 edges, of ghosts, of pairs and of both, free and used; and invalid ones."""
    for count in range(15):
        ghosts = made(PLAIN, ONE, *ghosts_up(count), (MOVE, 0, 0))
        words = [word for at in range(count) for word in whole(GHOST_BOTTOM, 10 * at + 10, at)]
        yield in_twelve(ghosts, (count, 0, count, 0), words)
    for count in range(8):
        pairs = [(STEM, 20 * at, 20 * at + 10) for at in range(count)]
        words = [word for at in range(count) for word in pair(20 * at, 20 * at + 10, at)]
        yield in_twelve(made(PLAIN, ONE, *pairs, (MOVE, 0, 0)), (2 * count, count, 0, 0), words)
        again = made(PLAIN, ONE, *pairs, (MOVE, 0, 0), (HINT_MASK, 0, 2), (LINE, 1, 1), masks=[0xFF, 0])
        words = [word for at in range(count) for word in pair(20 * at, 20 * at + 10, at, 1)]
        yield in_twelve(again, (2 * count, count, 0, 2 * count), words)
        yield in_twelve(again, (0, 0, 0, 0), [], commands=count + 2)
    for count in [8, 9, 10, 11]:
        # The em box, with ghosts in it.
        boxed = made(font(group=1), 32768, *ghosts_up(count), (MOVE, 0, 0))
        yield in_twelve(boxed, (count + 2, 0, count + 2, 2))


def in_twelve(script, counts, *words, commands=ALL):
    """So many edges are listed, or none if they are over twelve."""
    if counts[0] > FILLED_LIST // RECORD_WORDS:
        return refused(script, LIST_ROOM, 0, commands, FILLED_LIST)
    return Seeing(script, commands, FILLED_LIST, (OK, 0, Summary(*counts), *words))
