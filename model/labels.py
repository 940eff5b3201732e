"""Runs of labels (02, Ask 5).

Written from 02, the readings of it, 01 and the other parts of the model alone, before the crate
`labels` was there. All sums are exact.
"""

from itertools import accumulate
from typing import NamedTuple

from .calls import BAD_BLUES, BAD_SCALE, DRAWING, NO_ROOM, OK, Drawing
from .edges import ROOM_ENOUGH
from .numbers import HIGH
from .script import LEAST_PARAMS, Refused, commands_of
from .writer import GIVEN_COUNTS, LIST_WORDS, PARAM_WORDS, whole_params
from .zones import MOST_PAIRS, Params, state_of

RUN_COUNT = 9
MOST_GLYPHS = 64
LABELS_VERSION = 1
# Words of the result before its entries; words of an entry, which are the offset and the length of a glyph's records.
FIRST_WORDS, ENTRY_WORDS = 2, 2
# An output that is longer counts as this long, since no offset past it is a word.
MOST_WORDS = HIGH


class Run(NamedTuple):
    """What is run. Of the words that are parameters the first 64 are read, as the writer's are."""

    scale: int
    params: list
    commands: list
    masks: bytes
    lengths: list


def refuse_if(fault, number, glyph=0, place=0):
    if fault:
        raise Refused(number, glyph, place)


# The tests.


def check_lengths(run):
    words, data = run.lengths[::2], run.lengths[1::2]
    refuse_if(len(words) > MOST_GLYPHS or len(words) != len(data), RUN_COUNT)
    refuse_if(min(run.lengths, default=0) < 0, RUN_COUNT)
    refuse_if(sum(words) != len(run.commands) or sum(data) != len(run.masks), RUN_COUNT)


def check_params(scale, params):
    refuse_if(scale < 1, BAD_SCALE)
    refuse_if(any(not 0 <= count <= MOST_PAIRS for count in params[GIVEN_COUNTS]), BAD_BLUES)


def parts(whole, lengths):
    """What lies end to end, each by its length."""
    return [whole[end - length : end] for end, length in zip(accumulate(lengths), lengths)]


def glyphs_of(run):
    """The command words and the mask bytes of each glyph, where the lengths have no fault."""
    return list(zip(parts(run.commands, run.lengths[::2]), parts(run.masks, run.lengths[1::2])))


def glyph_commands(glyph, words, data):
    """The commands of a glyph. Its number stands in a refusal."""
    try:
        return commands_of(words, 0, data)
    except Refused as refusal:
        number, place = refusal.args
        raise Refused(number, glyph, place) from None


# The run.


def params_of(words):
    """The parameters of 64 words without a fault."""
    starts = range(LEAST_PARAMS, PARAM_WORDS, LIST_WORDS)
    lists = [words[first : first + 2 * count] for first, count in zip(starts, words[GIVEN_COUNTS])]
    return Params(*words[: GIVEN_COUNTS.start], *[list(zip(ends[::2], ends[1::2])) for ends in lists])


def records_of(state, commands):
    """The words of a glyph's records: those of a new drawing with room enough."""
    drawing, records = Drawing(state), []
    for _, kind, operands in commands:
        if kind in DRAWING:
            drawing, number, words = drawing.drawn(kind, operands, ROOM_ENOUGH)
            assert number == OK
            records += words
        else:
            drawing = drawing.hinted(kind, operands)
    return records


def ends_of(sizes):
    """Where the header ends, and where the records of each glyph end, by their sizes in words."""
    return list(accumulate([FIRST_WORDS + ENTRY_WORDS * len(sizes), *sizes]))


def without_room(sizes, room):
    """The first glyph that doesn't fit, 0 if the header doesn't; None if all fit."""
    return next((glyph for glyph, end in enumerate(ends_of(sizes)) if end > min(room, MOST_WORDS)), None)


def result_of(records):
    sizes = [len(words) for words in records]
    entries = [number for entry in zip(ends_of(sizes), sizes) for number in entry]
    return [LABELS_VERSION, len(records), *entries, *[word for words in records for word in words]]


def run_labels(run, out):
    """Changes the lent output, and answers a number, a glyph, a place, and the words written."""
    params = whole_params(run.params)
    try:
        check_lengths(run)
        check_params(run.scale, params)
        commands = [glyph_commands(glyph, *given) for glyph, given in enumerate(glyphs_of(run), 1)]
        state = state_of(params_of(params), run.scale)
        records = [records_of(state, each) for each in commands]
        glyph = without_room([len(words) for words in records], len(out))
        refuse_if(glyph is not None, NO_ROOM, glyph)
    except Refused as refusal:
        return *refusal.args, 0
    result = result_of(records)
    out[: len(result)] = result
    return OK, 0, 0, len(result)
