"""The edges of a drawing's current map, listed and counted (02, Ask 2).

Written from 02, the readings of it, 01 and the other parts of the model, after the crate `listing`
had been read.
"""

from typing import NamedTuple

from .calls import DRAWING, OK, opened
from .script import SCALE, Refused, check_header, check_params, commands_in, params_in, refuse_if, words_of
from .stems import GHOST_BOTTOM, GHOST_TOP, MAX_HINTS, PAIR_BOTTOM, PAIR_TOP

LIST_ROOM = 8
# The stem number of a synthetic edge.
SYNTHETIC_STEM = MAX_HINTS
# The kinds of edges by their numbers in a list, which is words, so many a record.
KINDS = [GHOST_BOTTOM, GHOST_TOP, PAIR_BOTTOM, PAIR_TOP]
RECORD_WORDS = 6
# No call writes more words of records.
ROOM_ENOUGH = 10


class Record(NamedTuple):
    """An edge as it is listed."""

    height: int
    device: int
    scale: int
    kind: int
    stem: int
    locked: bool


class Summary(NamedTuple):
    """How many records there are, pair bottoms, ghosts, and locked ones."""

    edges: int
    pairs: int
    ghosts: int
    locked: int


ZEROS = Summary(0, 0, 0, 0)


def record_of(edge):
    stem = SYNTHETIC_STEM if edge.synthetic else edge.number
    return Record(edge.height, edge.device, edge.scale, edge.kind, stem, edge.locked)


def edge_records(drawing):
    """A record of each edge of the current map. An invalid map has none."""
    return [] if drawing.map is None else [record_of(edge) for edge in drawing.map.edges]


def summary(records):
    kinds = [record.kind for record in records]
    ghosts = kinds.count(GHOST_BOTTOM) + kinds.count(GHOST_TOP)
    return Summary(len(records), kinds.count(PAIR_BOTTOM), ghosts, [record.locked for record in records].count(True))


def record_words(record):
    return [record.height, record.device, record.scale, KINDS.index(record.kind), record.stem, int(record.locked)]


# Over a script.


def drawing_after(params, scale, commands):
    """The drawing after commands, each with room enough."""
    _, drawing = opened(params, scale)
    for _, kind, operands in commands:
        if kind in DRAWING:
            drawing, number, _ = drawing.drawn(kind, operands, ROOM_ENOUGH)
            assert number == OK
        else:
            drawing = drawing.hinted(kind, operands)
    return drawing


def records_after(script, commands):
    """The records after so many commands of a script, or after all of them; 01's refusals 1 to 5."""
    check_header(script)
    words = words_of(script)
    check_params(words)
    done = commands_in(script, words)[:commands]
    return edge_records(drawing_after(params_in(words), words[SCALE], done))


def see_edges(script, commands, list_words):
    """A number, a place, the summary, and the words of the list afterwards."""
    try:
        records = records_after(script, commands)
        refuse_if(len(records) > len(list_words) // RECORD_WORDS, LIST_ROOM, 0)
    except Refused as refusal:
        return *refusal.args, ZEROS, list_words
    listed = [word for record in records for word in record_words(record)]
    return OK, 0, summary(records), listed + list_words[len(listed) :]
