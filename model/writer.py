"""Scripts written, and read back (02, Ask 1).

Written from 01, 02 and the readings of both alone. All sums are exact.
"""

import struct
from typing import NamedTuple

from .calls import BAD_BLUES, BAD_COMMAND, BAD_MASK, BAD_SCALE, COUNTER_MASK, HINT_MASK, NO_ROOM, OK
from .script import (
    COMMAND_COUNT, COUNTS, HEADER_WORDS, LEAST_PARAMS, MASK_COUNT, MASKS, MOST_BYTES, NUMBERS, OPERANDS, SCALE,
    SCRIPT_VERSION, Refused, check_header, check_params, commands_in, params_in, refuse_if, words_of
)
from .zones import MOST_PAIRS

SCRIPT_ROOM = 7
MASK_KINDS = HINT_MASK, COUNTER_MASK
# A mask command is given without its start.
GIVEN_OPERANDS = {kind: count - 1 if kind in MASK_KINDS else count for kind, count in OPERANDS.items()}
# The parameters as they are given: the numbers, the counts, and lists that have room for the most pairs each.
GIVEN_COUNTS = slice(4, 8)
LIST_WORDS = 2 * MOST_PAIRS
PARAM_WORDS = LEAST_PARAMS + len(COUNTS) * LIST_WORDS


class Given(NamedTuple):
    """What a script is written from. Of the words that are parameters the first 64 are read."""

    scale: int
    params: list
    commands: list
    masks: bytes


# Writing.


def whole_params(params):
    """The 64 words. Missing ones are 0."""
    return [*params[:PARAM_WORDS], *[0] * (PARAM_WORDS - len(params))]


def check_numbers(scale, params):
    refuse_if(scale < 1, BAD_SCALE, SCALE)
    for place, count in zip(COUNTS, params[GIVEN_COUNTS]):
        refuse_if(not 0 <= count <= MOST_PAIRS, BAD_BLUES, place)


def script_params(params):
    """The parameters as a script has them: pairs past a count are left out."""
    words = params[:LEAST_PARAMS]
    for number, count in enumerate(params[GIVEN_COUNTS]):
        first = LEAST_PARAMS + LIST_WORDS * number
        words += params[first : first + 2 * count]
    return words


def script_commands(commands, masks):
    """The commands as a script has them: a mask starts where those before it end."""
    words, at, taken = [], 0, 0
    while at < len(commands):
        kind = commands[at]
        refuse_if(kind not in GIVEN_OPERANDS or at + 1 + GIVEN_OPERANDS[kind] > len(commands), BAD_COMMAND, at)
        operands = commands[at + 1 : at + 1 + GIVEN_OPERANDS[kind]]
        if kind in MASK_KINDS:
            [length] = operands
            refuse_if(length < 0 or length > len(masks) - taken, BAD_MASK, at)
            operands = [taken, length]
            taken += length
        words += [kind, *operands]
        at += 1 + GIVEN_OPERANDS[kind]
    refuse_if(taken < len(masks), BAD_MASK, len(commands))
    return words


def whole_script(given):
    """The script's bytes, for which there may be no room."""
    params = whole_params(given.params)
    check_numbers(given.scale, params)
    params, commands = script_params(params), script_commands(given.commands, given.masks)
    first = HEADER_WORDS + len(params)
    end = first + len(commands)
    header = [SCRIPT_VERSION, given.scale, HEADER_WORDS, len(params), first, len(commands), end, len(given.masks)]
    words = [*header, *params, *commands]
    return struct.pack(f"<{len(words)}i", *words) + given.masks + bytes(-len(given.masks) % 4)


def write(given, room):
    """A number, a place, how many bytes are written into a buffer of so many, and the bytes, or None if refused."""
    try:
        script = whole_script(given)
        refuse_if(len(script) > min(room, MOST_BYTES), SCRIPT_ROOM, 0)
    except Refused as refusal:
        return *refusal.args, 0, None
    return OK, 0, len(script), script


# Reading back.


def given_params(words):
    """The parameters of a script as they were given: zeros stand past the pairs of each list."""
    params = [*words[NUMBERS], *(words[place] for place in COUNTS)]
    for pairs in params_in(words).lists():
        ends = [end for pair in pairs for end in pair]
        params += [*ends, *[0] * (LIST_WORDS - len(ends))]
    return params


def given_commands(commands):
    """The command words without the starts of masks. A mask's operand is its bytes here."""
    words = []
    for _, kind, operands in commands:
        words += [kind, *([len(operands[0])] if kind in MASK_KINDS else operands)]
    return words


def read_back(script, room_words, room_bytes):
    """A number, a place, and what a script was written from, or None if refused."""
    try:
        check_header(script)
        words = words_of(script)
        check_params(words)
        commands = given_commands(commands_in(script, words))
        refuse_if(len(commands) > room_words, NO_ROOM, COMMAND_COUNT)
        refuse_if(words[MASK_COUNT] > room_bytes, NO_ROOM, MASK_COUNT)
    except Refused as refusal:
        return *refusal.args, None
    first = 4 * words[MASKS]
    masks = script[first : first + words[MASK_COUNT]]
    return OK, 0, Given(words[SCALE], given_params(words), commands, masks)


def end_to_end(script):
    """Whether the masks of a script without a fault lie end to end over all mask bytes, those of no bytes too."""
    words, taken = words_of(script), 0
    for at, kind, _ in commands_in(script, words):
        if kind in MASK_KINDS:
            start, length = words[at + 1 : at + 3]
            if start != taken:
                return False
            taken += length
    return taken == words[MASK_COUNT]
