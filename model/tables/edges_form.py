"""Cases of edges that are listed, as they are stored.

A case has the bytes of the script, the commands in a low word and a high word, the words of the
list, the number and the place of the answer, and its edges, pairs, ghosts and locked edges; the
script, filled up with zeros to a whole word; every word of the list as it is lent; every word of it
afterwards.
"""

from typing import NamedTuple

from ..calls import OK
from ..edges import RECORD_WORDS, ZEROS, Summary, see_edges
from ..numbers import wrapped
from .form import agree, packed
from .scripts_good import padded_bytes, script_of
from .writer_form import FILLS, lent_words, over

# What the program that runs the cases can hold.
HELD_BYTES, HELD_LIST = 65600, 600
# A list of records that are all alike: the words of it, and the kind, stem and lock of each record.
FILLED_LIST = 12 * RECORD_WORDS
FILLED = [1, 77, 1]
# Commands are counted in 64 bits. No script has so many as stand in 32.
FAR = [2**31, 2**32 - 1, 2**32, 2**32 + 1, 2**63 - 1, 2**63, 2**64 - 1]
ALL = FAR[-1]


class Seeing(NamedTuple):
    """A case, and as much of its answer as is written by hand: number, place, summary, words listed."""

    script: bytes
    commands: int
    room: int
    said: tuple = ()


def listing(script, counts, words, commands=ALL, room=None):
    """These words are listed, with these counts; the list has just their room if none is said."""
    room = len(words) if room is None else room
    return Seeing(script, commands, room, (OK, 0, Summary(*counts), words))


def nothing(script, commands=ALL, room=RECORD_WORDS):
    """The map is not valid, or has no edges."""
    return listing(script, ZEROS, [], commands, room)


def refused(script, number, place, commands=ALL, room=0):
    return Seeing(script, commands, room, (number, place, ZEROS, []))


def made(params, scale, *commands, masks=()):
    """A script's bytes."""
    return packed(script_of(params, scale, *commands, masks=masks))


def answered(script, commands, room):
    """What the model says: number, place, summary, and the words that are listed."""
    lent = [object() for _ in range(room)]
    *answer, left = see_edges(script, commands, lent)
    count = len([word for word in left if isinstance(word, int)])
    # The words are the first of the list, and all else is as it was lent.
    assert left == over(lent, left[:count])
    return *answer, left[:count]


def showing(words, room, number):
    """A list in which all words would be seen if they were not written; its fill goes by the number of the row."""
    for fill in range(number, number + FILLS):
        lent = lent_words(1 + fill % (FILLS - 1), room)
        if all(lent) and not any(old == new for old, new in zip(lent, words)):
            return lent
    raise ValueError(number)


def stored(case, lend):
    """A case as it is stored, with a list that is lent for what is written and its room."""
    script, commands, room, said = case
    assert len(script) <= HELD_BYTES and room <= HELD_LIST
    answer = answered(script, commands, room)
    agree(said, answer[: len(said)], case)
    number, place, counts, words = answer
    lent = lend(words, room)
    high, low = divmod(commands, 2**32)
    head = [len(script), wrapped(low), wrapped(high), room, number, place, *counts]
    return packed(head) + padded_bytes(script) + packed([*lent, *over(lent, words)])


def row(case, number):
    """A case as it is stored, in the row of that number."""
    return stored(case, lambda words, room: showing(words, room, number))


def filled_row(case, number):
    """The same with a list of records that are all alike: one that no edge here has."""

    def lend(words, room):
        *heights, _, _, _ = showing(words[:RECORD_WORDS], RECORD_WORDS, number)
        assert room == FILLED_LIST and not any(height in words for height in heights)
        return [*heights, *FILLED] * (room // RECORD_WORDS)

    return stored(case, lend)
