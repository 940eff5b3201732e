"""Scripts (01, "The script" and its table): the tests in 01's order, and the run.

The tests were written from 01 and the readings of it alone. What a call writes calls.py answers.
"""

import struct

from .calls import (
    BAD_BLUES, BAD_COMMAND, BAD_MASK, BAD_SCALE, BAD_SCRIPT, CLEAR, CLOSE, CLOSED, COUNTER_MASK, CURVE, CURVED, DRAWING,
    FINISH, FINISHED, HINT_MASK, LINE, LINED, MOVE, MOVED, NO_ROOM, OK, STEM, opened
)
from .zones import MOST_PAIRS, Params

# Words of the header, by their places; then those of the parameters.
VERSION, SCALE, PARAMS, PARAM_COUNT, COMMANDS, COMMAND_COUNT, MASKS, MASK_COUNT, HEADER_WORDS = range(9)
NUMBERS, COUNTS, PAIRS = slice(8, 12), range(12, 16), 16
LEAST_BYTES, MOST_BYTES = 4 * HEADER_WORDS, 65536
LEAST_PARAMS = 8
MOST_PARAMS = LEAST_PARAMS + 2 * len(COUNTS) * MOST_PAIRS
SCRIPT_VERSION = RESULT_VERSION = 1
RESULT_HEADER = 4
OPERANDS = {STEM: 2, HINT_MASK: 2, COUNTER_MASK: 2, CLEAR: 0, MOVE: 2, LINE: 2, CURVE: 6, CLOSE: 0, FINISH: 0}
RECORDS = {MOVED: 3, LINED: 3, CURVED: 7, CLOSED: 1, FINISHED: 1}


class Refused(Exception):
    """A number of 01's table other than 0, and a place."""


def refuse_if(fault, number, place):
    if fault:
        raise Refused(number, place)


def padded(count):
    """So many bytes in whole words."""
    return -(-count // 4)


def words_of(script):
    return struct.unpack(f"<{len(script) // 4}i", script)


# The tests. All sums are exact.


def check_header(script):
    refuse_if(not LEAST_BYTES <= len(script) <= MOST_BYTES or len(script) % 4 != 0, BAD_SCRIPT, 0)
    words = words_of(script)
    version, _, params, count, commands, length, masks, number = words[:HEADER_WORDS]
    refuse_if(version != SCRIPT_VERSION, BAD_SCRIPT, VERSION)
    refuse_if(params != HEADER_WORDS, BAD_SCRIPT, PARAMS)
    refuse_if(not LEAST_PARAMS <= count <= MOST_PARAMS, BAD_SCRIPT, PARAM_COUNT)
    refuse_if(commands != HEADER_WORDS + count, BAD_SCRIPT, COMMANDS)
    refuse_if(length < 0 or commands + length > len(words), BAD_SCRIPT, COMMAND_COUNT)
    refuse_if(masks != commands + length, BAD_SCRIPT, MASKS)
    refuse_if(number < 0 or masks + padded(number) != len(words), BAD_SCRIPT, MASK_COUNT)
    refuse_if(any(script[4 * masks + number :]), BAD_SCRIPT, MASK_COUNT)


def check_params(words):
    refuse_if(words[SCALE] < 1, BAD_SCALE, SCALE)
    for place in COUNTS:
        refuse_if(not 0 <= words[place] <= MOST_PAIRS, BAD_BLUES, place)
    pairs = sum(words[place] for place in COUNTS)
    refuse_if(words[PARAM_COUNT] != LEAST_PARAMS + 2 * pairs, BAD_SCRIPT, PARAM_COUNT)


def commands_of(words, first, mask_bytes):
    """The place, the kind and the operands of each command from a word on; the bytes themselves of a mask."""
    commands, at = [], first
    while at < len(words):
        kind = words[at]
        refuse_if(kind not in OPERANDS or at + 1 + OPERANDS[kind] > len(words), BAD_COMMAND, at)
        operands = words[at + 1 : at + 1 + OPERANDS[kind]]
        if kind in (HINT_MASK, COUNTER_MASK):
            start, length = operands
            refuse_if(start < 0 or length < 0 or start + length > len(mask_bytes), BAD_MASK, at)
            operands = [mask_bytes[start : start + length]]
        commands.append((at, kind, operands))
        at += 1 + OPERANDS[kind]
    return commands


def commands_in(script, words):
    """Those of a script."""
    end = words[MASKS]
    return commands_of(words[:end], words[COMMANDS], script[4 * end : 4 * end + words[MASK_COUNT]])


# The run.


def params_in(words):
    """The four numbers, and the pairs of each list in turn."""
    lists, at = [], PAIRS
    for count in (words[place] for place in COUNTS):
        lists.append([tuple(words[place : place + 2]) for place in range(at, at + 2 * count, 2)])
        at += 2 * count
    return Params(*words[NUMBERS], *lists)


def record_count(words):
    count = at = 0
    while at < len(words):
        count, at = count + 1, at + RECORDS[words[at]]
    return count


def run(params, scale, commands, out):
    """Writes the records behind the header's words, and answers their words."""
    _, drawing = opened(params, scale)
    records = []
    for place, kind, operands in commands:
        if kind in DRAWING:
            first = RESULT_HEADER + len(records)
            drawing, number, words = drawing.drawn(kind, operands, len(out) - first)
            refuse_if(number == NO_ROOM, NO_ROOM, place)
            out[first : first + len(words)] = words
            records += words
        else:
            drawing = drawing.hinted(kind, operands)
    return records


def run_script(script, out):
    """Changes the lent output, and answers a number of 01's table and a place."""
    try:
        check_header(script)
        words = words_of(script)
        check_params(words)
        commands = commands_in(script, words)
        refuse_if(len(out) < RESULT_HEADER, NO_ROOM, words[COMMANDS])
        records = run(params_in(words), words[SCALE], commands, out)
    except Refused as refusal:
        return refusal.args
    out[:RESULT_HEADER] = RESULT_VERSION, record_count(records), RESULT_HEADER, len(records)
    return OK, 0
