"""What 02 says of scripts that are written and read back. The model is held to it in every case of the tables."""

from ..calls import BAD_MASK, OK
from ..script import LEAST_PARAMS
from ..writer import GIVEN_COUNTS, LIST_WORDS, end_to_end, read_back, whole_params, write
from .writer import READ, WRITTEN
from .writer_read import accepted, all_masks, given_back, stored_scripts


def without_rest(params):
    """The 64 words, zeros for the pairs past each count."""
    words = whole_params(params)
    for number, count in enumerate(words[GIVEN_COUNTS]):
        first, end = LEAST_PARAMS + LIST_WORDS * number, LEAST_PARAMS + LIST_WORDS * (number + 1)
        words[first + 2 * count : end] = [0] * (LIST_WORDS - 2 * count)
    return words


def written_scripts():
    """The name of each case in which a script is written, what it is written from, and the script."""
    for name, cases in WRITTEN.items():
        for at, case in enumerate(cases()):
            number, _, _, script = write(case.given, case.room)
            if number == OK:
                yield f"{name}, row {at}", case.given, script


def reads_back():
    """What is written reads back as it was given, pairs past a count apart."""
    for name, given, script in written_scripts():
        said = given._replace(params=without_rest(given.params))
        yield f"{name}, read back", (OK, 0, said), read_back(script, len(given.commands), len(given.masks))


def all_scripts():
    """The name of each script that 01 accepts, and the script: those of all tables, and all with few masks."""
    for name, _, script in written_scripts():
        yield name, script
    for name, cases in READ.items():
        yield from [(f"{name}, row {at}", case.script) for at, case in enumerate(cases()) if accepted(case.script)]
    yield from [(f"stored script {at}", script) for at, script in enumerate(stored_scripts())]
    for count, number in [(0, 4), (1, 4), (2, 3), (3, 2), (4, 2)]:
        scripts = all_masks(count, number)
        yield from [(f"{number} masks on {count} bytes, {at}", script) for at, script in enumerate(scripts)]


def written_again():
    """The bytes are the same exactly if the masks lie end to end; else others are written, or it is a BAD_MASK."""
    for name, script in all_scripts():
        number, *_, again = write(given_back(script), len(script))
        yield f"{name}, written again", end_to_end(script), again == script
        yield f"{name}, the answer to that", True, number in (OK, BAD_MASK)


def differing():
    """How many sentences there are, and the names of those that the model breaks."""
    sentences = [sentence for part in [reads_back, written_again] for sentence in part()]
    return len(sentences), [name for name, said, given in sentences if said != given]
