"""Changes of scripts, and cases as they are stored.

A case has the bytes of the script, the words of the room, the first lent word, no mark, the number
and the place of the answer; the script up to a whole word; every word of the output.
"""

from ..numbers import wrapped
from ..script import run_script
from .form import agree, packed
from .scripts_good import padded_bytes

# More words than any result here has, but for one.
AMPLE = 120
# The words that a case is lent: the first, and how much more each is than the one before it.
FILL, STEP = 1701, 0x9E3779B1


# Changes: what is done, a place, and a value.


WORD, BYTE, LENGTH = range(3)


def word(at, value):
    return WORD, at, value


def words(**values):
    """Words by their numbers, as w5=3."""
    return [word(int(name[1:]), value) for name, value in values.items()]


def byte(at, value):
    return BYTE, at, value


def length(count, value=0):
    """So many bytes. The words past the old end are all the same."""
    return LENGTH, count, value


def changed(script, changes):
    """The bytes after the changes."""
    data = bytearray(packed(script))
    for what, at, value in changes:
        if what == WORD:
            data[4 * at : 4 * at + 4] = packed([value])
        elif what == BYTE:
            data[at] = value
        elif what == LENGTH:
            data = (data + packed([value]) * ((at - len(data)) // 4))[:at].ljust(at, b"\0")
    return bytes(data)


# Cases.


def lent_words(room):
    return [wrapped(FILL + STEP * at) for at in range(room)]


def stored(data, room, number, place, first, after):
    """A case whose output changes from a word on."""
    out = lent_words(room)
    # A word that is written would show if it were not.
    assert not any(old == new for old, new in zip(out[first:], after))
    out[first : first + len(after)] = after
    return packed([len(data), room, FILL, 0, number, place]) + padded_bytes(data) + packed(out)


def answered(data, room):
    """What the model says: number, place, the first word that changes, and the words."""
    lent = [object() for _ in range(room)]
    out = list(lent)
    number, place = run_script(data, out)
    after = [at for at in range(room) if out[at] is not lent[at]]
    first = after[0] if after else 0
    assert after == list(range(first, first + len(after)))
    return number, place, first, [out[at] for at in after]


def model_case(script, changes=(), room=AMPLE):
    data = changed(script, changes)
    return stored(data, room, *answered(data, room))


def refused_case(script, changes, number, place, room=AMPLE):
    """A case whose number and place are written by hand."""
    data = changed(script, changes)
    said = answered(data, room)
    agree((number, place), said[:2], (script, changes, room))
    return stored(data, room, *said)


def worked_case(script, room, *by_hand):
    """A case all of whose answer is written by hand."""
    data = packed(script)
    agree(by_hand, answered(data, room), (script, room))
    return stored(data, room, *by_hand)
