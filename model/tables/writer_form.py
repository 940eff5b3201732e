"""Cases of scripts that are written or read back, as they are stored.

A case of writing has the count of parameter words, of command words and of mask bytes, the bytes of
the room, the fill, the number and the place of the answer, the bytes written, and the scale; the
parameters; the commands; the mask bytes; every byte of the buffer afterwards.

A case of reading has the bytes of the script, the room in words and in bytes, the fill, the number
and the place of the answer, the count of command words and of mask bytes, and the scale, which are
0 if refused; 64 parameters, zeros if refused; the script; every word of the buffer for commands
afterwards; every byte of the buffer for masks afterwards.

Bytes are filled up with zeros to a whole word.
"""

from collections import Counter
from typing import NamedTuple

from ..calls import OK
from ..numbers import wrapped
from ..writer import PARAM_WORDS, Given, read_back, write
from .form import agree, packed
from .scripts_good import padded_bytes

# What the program that runs the cases can hold.
HELD_PARAMS, HELD_WORDS, HELD_BYTES = 72, 16400, 65600
# More bytes than a script would have that is refused for another reason.
AMPLE = 128
# What is lent: the first byte is the fill, each byte is so much more than the one before it; words likewise.
FILLS = 256
BYTE_STEP = 37
WORD_FACTOR, WORD_STEP = 16777619, 0x9E3779B1
# A zero of the padding is to be seen before all.
PADDING_WEIGHT = 1000


class Writing(NamedTuple):
    """A case, and as much of its answer as is written by hand: number, place, written, bytes."""

    given: Given
    room: int
    said: tuple = ()


class Reading(NamedTuple):
    """A case, and as much of its answer as is written by hand: number, place, what is given back."""

    script: bytes
    room_words: int
    room_bytes: int
    said: tuple = ()


def fine(given, size, room=None):
    """A script of so many bytes is written, into a buffer of as many if no room is said."""
    return Writing(given, size if room is None else room, (OK, 0, size))


def refused(given, number, place, room=AMPLE):
    """Nothing is written."""
    return Writing(given, room, (number, place, 0, None))


def lent_bytes(fill, room):
    return bytes((fill + BYTE_STEP * at) % FILLS for at in range(room))


def lent_words(fill, room):
    return [wrapped(fill * WORD_FACTOR + WORD_STEP * at) for at in range(room)]


def showing(data, padding, number):
    """The fill in which most bytes would be seen if they were not written; of equals, by the number of the row."""
    unseen = Counter((byte - BYTE_STEP * at) % FILLS for at, byte in enumerate(data))
    for at in range(len(data) - padding, len(data)):
        unseen[-BYTE_STEP * at % FILLS] += PADDING_WEIGHT
    return min(((number + more) % FILLS for more in range(FILLS)), key=lambda fill: unseen[fill])


def over(lent, words):
    """A buffer after these words or bytes are written."""
    return lent[:0] + words + lent[len(words) :]


def in_fours(data):
    return [data[at : at + 4] for at in range(0, len(data), 4)]


def written_row(case, number):
    """A case of writing as it is stored, in the row of that number."""
    given, room, said = case
    scale, params, commands, masks = given
    assert len(params) <= HELD_PARAMS and len(commands) <= HELD_WORDS and max(len(masks), room) <= HELD_BYTES
    answer = write(given, room)
    agree(said, answer[: len(said)], case)
    *answer, script = answer
    script = script or b""
    fill = showing(script, -len(masks) % 4 if script else 0, number)
    lent = lent_bytes(fill, room)
    # A word that is written would show if it were not.
    assert not any(old == new for old, new in zip(in_fours(lent), in_fours(script)))
    head = [len(params), len(commands), len(masks), room, fill, *answer, scale]
    return packed([*head, *params, *commands]) + padded_bytes(masks) + padded_bytes(over(lent, script))


def read_row(case, number):
    """A case of reading as it is stored, in the row of that number."""
    script, room_words, room_bytes, said = case
    assert room_words <= HELD_WORDS and max(len(script), room_bytes) <= HELD_BYTES
    answer = read_back(script, room_words, room_bytes)
    agree(said, answer[: len(said)], case)
    *answer, given = answer
    scale, params, commands, masks = given or Given(0, [0] * PARAM_WORDS, [], b"")
    fill = showing(masks, 0, number)
    words = lent_words(fill, room_words)
    assert not any(old == new for old, new in zip(words, commands))
    head = [len(script), room_words, room_bytes, fill, *answer, len(commands), len(masks), scale]
    after = packed(over(words, commands)) + padded_bytes(over(lent_bytes(fill, room_bytes), masks))
    return packed([*head, *params]) + padded_bytes(script) + after
