"""What 02 says of label runs. The model is held to it in every case of the tables."""

from functools import lru_cache

from ..calls import BAD_COMMAND, BAD_MASK, BAD_SCALE, NO_ROOM, OK
from ..labels import MOST_WORDS, glyphs_of, without_room
from ..script import COMMANDS, HEADER_WORDS, RESULT_HEADER, SCRIPT_VERSION, run_script, words_of
from ..writer import script_params, whole_params
from .form import packed
from .labels import LABELS
from .labels_form import HELD_OUT, answered
from .scripts_good import padded_bytes

# More words than the result of any glyph of the tables has.
RESULT_ROOM = 4000


def own_script(run, words, masks):
    """A glyph's own script."""
    params = script_params(whole_params(run.params))
    first = HEADER_WORDS + len(params)
    header = [SCRIPT_VERSION, run.scale, HEADER_WORDS, len(params), first, len(words), first + len(words), len(masks)]
    return packed([*header, *params, *words]) + padded_bytes(masks)


@lru_cache(maxsize=None)
def run_alone(script):
    """The number and the place, and the words of the result."""
    out = [None] * RESULT_ROOM
    answer = run_script(script, out)
    return answer, [word for word in out if word is not None]


def entries(result):
    """The offset and the length of each glyph."""
    return [tuple(result[at : at + 2]) for at in range(2, 2 + 2 * result[1], 2)]


def records(name, run, room):
    """Each glyph's records are those of its own script; they lie end to end behind the header."""
    number, glyph, place, size, result = answered(run, room)
    if number != OK:
        return
    glyphs = glyphs_of(run)
    yield f"{name}, OK", (0, 0, len(result)), (glyph, place, size)
    yield f"{name}, head", [1, len(glyphs)], result[:2]
    at = 2 + 2 * len(glyphs)
    for glyph, ((offset, length), own) in enumerate(zip(entries(result), glyphs), 1):
        answer, alone = run_alone(own_script(run, *own))
        yield f"{name}, glyph {glyph} alone", (OK, 0), answer
        yield f"{name}, records of glyph {glyph}", alone[RESULT_HEADER:], result[offset : offset + length]
        yield f"{name}, offset of glyph {glyph}", at, offset
        at += length
    yield f"{name}, end", at, size
    # A result of one record is the script's own, and no other is.
    if len(glyphs) == 1:
        yield f"{name}, beside the script's result", alone[1] == 1, result == alone


def faults(name, run, room):
    """The fault of a command is that of the glyph's own script, and no glyph before it has one."""
    number, glyph, place, *_ = answered(run, room)
    if number not in (BAD_COMMAND, BAD_MASK):
        return
    scripts = [own_script(run, *own) for own in glyphs_of(run)]
    for before in range(1, glyph):
        (alone, _), _ = run_alone(scripts[before - 1])
        yield f"{name}, glyph {before} before the fault", OK, alone
    answer, _ = run_alone(scripts[glyph - 1])
    yield f"{name}, the fault alone", (number, words_of(scripts[glyph - 1])[COMMANDS] + place), answer


def zeros(name, run, room):
    """Every other refusal has place 0, and has glyph 0 but where there is no room; a bad scale is the script's too."""
    number, glyph, place, size, result = answered(run, room)
    if number in (OK, BAD_COMMAND, BAD_MASK):
        return
    yield f"{name}, zeros", (0, 0, []), (place, size, result)
    yield f"{name}, a glyph", True, glyph == 0 or number == NO_ROOM
    if number == BAD_SCALE:
        for own in glyphs_of(run):
            yield f"{name}, the scale alone", BAD_SCALE, run_alone(own_script(run, *own))[0][0]


def short_rooms(name, run, room):
    """A run without room fits in another output. The first glyph that ends behind this one is named."""
    number, glyph, *_ = answered(run, room)
    if number != NO_ROOM:
        return
    number, _, _, size, result = answered(run, HELD_OUT)
    yield f"{name}, with room", OK, number
    ends = [2 + 2 * result[1], *[offset + length for offset, length in entries(result)]]
    yield f"{name}, glyph without room", (True, []), (ends[glyph] > room, [end for end in ends[:glyph] if end > room])
    yield f"{name}, just room", OK, answered(run, size)[0]


def longest():
    """No output counts as longer than a word can tell: of one glyph, and of two."""
    for room in [MOST_WORDS, MOST_WORDS + 1, 2**32, 2**64 - 1]:
        yield f"one glyph to the end, in {room} words", None, without_room([MOST_WORDS - 4], room)
        yield f"one glyph past it, in {room} words", 1, without_room([MOST_WORDS - 3], room)
        yield f"two glyphs to the end, in {room} words", None, without_room([MOST_WORDS - 7, 1], room)
        yield f"the second past it, in {room} words", 2, without_room([MOST_WORDS - 7, 2], room)
        yield f"an offset past it, in {room} words", 1, without_room([2147483642, 0], room)
    yield "a word less than the end", 1, without_room([MOST_WORDS - 4], MOST_WORDS - 1)


def differing():
    """How many sentences there are, and the names of those that the model breaks."""
    sentences = [*longest()]
    for table, cases in LABELS.items():
        for at, case in enumerate(cases()):
            for part in [records, faults, zeros, short_rooms]:
                sentences += part(f"{table}, row {at}", case.run, case.room)
    return len(sentences), [name for name, said, given in sentences if said != given]
