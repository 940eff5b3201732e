"""The stored scripts, each read back and written again into a buffer of its own length.

The scripts are those of the files that `test_scripts` reads, cases as scripts_form.py lays them
down; what becomes of each comes from model/writer.py. Nothing of it is stored but a line of counts
for each file, which the program says too.
"""

import struct

from ..calls import OK
from ..writer import end_to_end, read_back, write
from .form import Disagreement
from .scripts_good import padded_bytes
from .writer_form import HELD_BYTES, HELD_WORDS

CASE_WORDS = 6
SAME, OTHER, REFUSED, NOT_READ = range(4)


def words_at(stored, at, count):
    return struct.unpack_from(f"<{count}i", stored, at)


def scripts_in(stored):
    """The script of each case, of all tables of a file."""
    at = 0
    while at < len(stored):
        [rows] = words_at(stored, at, 1)
        at += 4
        for _ in range(rows):
            size, room, *_ = words_at(stored, at, CASE_WORDS)
            first = at + 4 * CASE_WORDS
            script = stored[first : first + size]
            yield script
            at = first + len(padded_bytes(script)) + 4 * room


def becomes(at, script):
    """What becomes of a script. Its bytes are the same exactly if its masks lie end to end."""
    number, _, given = read_back(script, HELD_WORDS, HELD_BYTES)
    if number != OK:
        return NOT_READ
    number, _, _, again = write(given, len(script))
    same = again == script
    if same != end_to_end(script):
        raise Disagreement(f"script {at}: masks end to end {end_to_end(script)}, the same bytes {same}")
    if number != OK:
        return REFUSED
    return SAME if same else OTHER


def line(stored):
    """What `test_scripts` says of a file."""
    found = [becomes(at, script) for at, script in enumerate(scripts_in(stored))]
    same, other, refused, not_read = map(found.count, [SAME, OTHER, REFUSED, NOT_READ])
    return (
        f"written again: {same} the same bytes, {other} other bytes, "
        f"{refused} refused by the writer; {not_read} not read back"
    )
