"""Cases of label runs, as they are stored.

A case has the count of parameter words, of command words and of lengths, the words of the output,
the mask bytes, the number, the glyph and the place of the answer, the words written, and the scale;
the parameters; the commands; the lengths; every word of the output as it is lent; every word of it
afterwards; the mask bytes, filled up with zeros to a whole word.
"""

from typing import NamedTuple

from ..calls import OK
from ..labels import Run, run_labels
from ..numbers import ONE
from ..script import COMMANDS, MASK_COUNT, MASKS
from ..writer import given_params
from .edges_form import showing
from .fonts import PLAIN
from .form import agree, packed
from .scripts_good import command, padded_bytes, script_of
from .writer_form import over

# What the program that runs the cases can hold: words that are given, words of the output, mask bytes.
HELD_WORDS, HELD_OUT, HELD_BYTES = 1200, 800, 64
# As many words as most runs need that are refused for another reason.
AMPLE = 20


class Glyph(NamedTuple):
    """The command words and the mask bytes of a glyph."""

    words: list
    masks: bytes


class Labelling(NamedTuple):
    """A case, and as much of its answer as is written by hand: number, glyph, place, words written, result."""

    run: Run
    room: int
    said: tuple = ()


def glyph(*commands, masks=()):
    """Commands in whole units or parts of one; masks by a start among the glyph's own bytes and a length."""
    return Glyph([word for parts in commands for word in command(*parts)], bytes(masks))


def glyph_in(script):
    """The commands and the mask bytes of a script that 01 accepts, given as words."""
    first = script[MASKS]
    return Glyph(list(script[script[COMMANDS] : first]), packed(script[first:])[: script[MASK_COUNT]])


def param_words(params):
    """Parameters as the words that are given, without the zeros at their end."""
    words = given_params(script_of(params, ONE))
    while words and words[-1] == 0:
        words.pop()
    return words


def run_of(scale, *glyphs, params=PLAIN):
    """Glyphs end to end, and the lengths of each."""
    commands = [word for each in glyphs for word in each.words]
    lengths = [length for each in glyphs for length in (len(each.words), len(each.masks))]
    return Run(scale, param_words(params), commands, b"".join(each.masks for each in glyphs), lengths)


def written(run, *result, room=None):
    """These words are written, into an output of just as many if no room is said."""
    return Labelling(run, len(result) if room is None else room, (OK, 0, 0, len(result), list(result)))


def fine(run, size, room=None):
    """So many words are written, likewise."""
    return Labelling(run, size if room is None else room, (OK, 0, 0, size))


def refused(run, number, glyph=0, place=0, room=AMPLE):
    """Nothing is written."""
    return Labelling(run, room, (number, glyph, place, 0, []))


def answered(run, room):
    """What the model says: number, glyph, place, words written, and the words."""
    lent = [object() for _ in range(room)]
    out = list(lent)
    *answer, count = run_labels(run, out)
    # The words are the first of the output, and all else is as it was lent.
    assert all(isinstance(word, int) for word in out[:count]) and out == over(lent, out[:count])
    return *answer, count, out[:count]


def row(case, number):
    """A case as it is stored, in the row of that number."""
    run, room, said = case
    given = [*run.params, *run.commands, *run.lengths]
    assert len(given) <= HELD_WORDS and room <= HELD_OUT and len(run.masks) <= HELD_BYTES
    answer = answered(run, room)
    agree(said, answer[: len(said)], case)
    *answer, words = answer
    lent = showing(words, room, number)
    counts = [len(run.params), len(run.commands), len(run.lengths), room, len(run.masks)]
    head = [*counts, *answer, run.scale]
    return packed([*head, *given, *lent, *over(lent, words)]) + padded_bytes(run.masks)
