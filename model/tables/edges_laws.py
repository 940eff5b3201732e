"""What 01 and 02 say of edges that are listed. The model is held to it in every case of the tables."""

from ..calls import NO_ROOM, OK
from ..edges import LIST_ROOM, RECORD_WORDS, SYNTHETIC_STEM, ZEROS
from ..script import SCALE, run_script, words_of
from .edges import LENT, SEEN
from .edges_by_hand import GHOST_BOTTOM, GHOST_TOP, PAIR_BOTTOM, PAIR_TOP
from .edges_form import HELD_LIST, answered

# More words than the result of any script of the tables has.
RESULT_ROOM = 16400


def in_records(words):
    return [words[at : at + RECORD_WORDS] for at in range(0, len(words), RECORD_WORDS)]


def refusals(name, case):
    """A script is refused as its run is; then the list exactly if a valid map is longer."""
    given = answered(*case[:3])
    number, place = run_script(case.script, [0] * RESULT_ROOM)
    if number not in (OK, NO_ROOM):
        yield f"{name}, refused as the run is", (number, place, ZEROS, []), given
        return
    whole = answered(case.script, case.commands, HELD_LIST)
    yield f"{name}, refused if too long", whole if len(whole[-1]) <= case.room else (LIST_ROOM, 0, ZEROS, []), given


def records(name, case):
    """Order, pairs, stems and the last scale of the records, and their counts."""
    _, _, counts, words = answered(*case[:3])
    listed = in_records(words)
    heights, kinds = [height for height, *_ in listed], [kind for *_, kind, _, _ in listed]
    yield f"{name}, heights", sorted(heights), heights
    yield f"{name}, edges", 2 * counts.pairs + counts.ghosts, counts.edges
    ghosts = kinds.count(GHOST_BOTTOM) + kinds.count(GHOST_TOP)
    locked = [lock for *_, lock in listed].count(1)
    yield f"{name}, counts", counts, (len(listed), kinds.count(PAIR_BOTTOM), ghosts, locked)
    for at, (*_, kind, stem, lock) in enumerate(listed):
        if kind == PAIR_BOTTOM:
            yield f"{name}, top of edge {at}", [PAIR_TOP, stem, lock], [*listed, []][at + 1][3:]
        if kind == PAIR_TOP:
            yield f"{name}, bottom of edge {at}", [PAIR_BOTTOM, stem, lock], [[], *listed][at][3:]
        if stem == SYNTHETIC_STEM:
            yield f"{name}, synthetic edge {at}", (True, 1), (kind in (GHOST_BOTTOM, GHOST_TOP), lock)
    if listed:
        yield f"{name}, last scale", words_of(case.script)[SCALE], listed[-1][2]


def differing():
    """How many sentences there are, and the names of those that the model breaks."""
    sentences = []
    for table, cases in {**SEEN, **LENT}.items():
        for at, case in enumerate(cases()):
            for part in [refusals, records]:
                sentences += part(f"{table}, row {at}", case)
    return len(sentences), [name for name, said, given in sentences if said != given]
