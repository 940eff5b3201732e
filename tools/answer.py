"""Gives a script to the program `hint` and prints its answer for people, as tools/hint says.

    python3 answer.py SCRIPT TEXT COMMAND...     COMMAND runs the program; TEXT is empty, or the text of SCRIPT
"""

import sys

from program import ANSWERS, MOST_BYTES, OK, REFUSED, answer_of, contents, words_of
from text import given_of, line_at

TOOL = "hint"
LEAST_BYTES = 32
RESULT_HEADER = 4
FRACTION_BITS = 16
# What stands in the words of a script that a refusal can name, as far as they have fixed places.
WORDS = {
    0: "the script's version",
    1: "the scale",
    2: "the offset of the parameters",
    3: "the number of parameter words",
    4: "the offset of the commands",
    5: "the number of command words",
    6: "the offset of the mask bytes",
    7: "the number of mask bytes (padded with zeros)",
    12: "the number of blues",
    13: "the number of other blues",
    14: "the number of family blues",
    15: "the number of family other blues",
}
COMMANDS = [None, "stem", "hint mask", "counter mask", "clear", "move", "line", "curve", "close", "finish"]
# Each kind of record, and how many words stand behind its kind word.
RECORDS = {1: ("move", 2), 2: ("line", 2), 3: ("curve", 6), 4: ("close", 0), 5: ("finish", 0)}


def decimal(bits):
    """A number in 16.16, exactly: a binary digit behind the point takes one decimal digit."""
    whole, part = divmod(abs(bits), 1 << FRACTION_BITS)
    digits = f"{part * 10**FRACTION_BITS >> FRACTION_BITS:0{FRACTION_BITS}}"
    return f"{'-' if bits < 0 else ''}{whole}.{digits.rstrip('0') or '0'}"


def standing(script, place):
    """What stands at the place that a refusal names."""
    if place == 0 and (not LEAST_BYTES <= len(script) <= MOST_BYTES or len(script) % 4 != 0):
        return f"the script's length, which is not {LEAST_BYTES} to {MOST_BYTES} bytes in fours"
    word = words_of(script)[place]
    if place in WORDS:
        return f"{WORDS[place]}, which is {word}"
    name = f", {COMMANDS[word]}" if 0 < word < len(COMMANDS) else ""
    return f"a command of kind {word}{name}"


def lines(records):
    """The records, each on a line."""
    at = 0
    while at < len(records):
        name, count = RECORDS[records[at]]
        end = at + 1 + count
        yield " ".join([name, *map(decimal, records[at + 1 : end])])
        at = end


def written(text, place):
    """The line of a text in which the command at a place is written."""
    return f", {text}:{line_at(given_of(contents(TOOL, text)), place)}" if text else ""


def main(path, text, *command):
    script = contents(TOOL, path, MOST_BYTES + 1)
    number, place, data = answer_of(TOOL, command, script)
    if number != OK:
        print(f"{ANSWERS[number]}, place {place}: {standing(script, place)}{written(text, place)}")
        sys.exit(REFUSED)
    result = words_of(data)
    print(f"{ANSWERS[number]}, place {place}, {result[1]} records")
    for line in lines(result[RESULT_HEADER:]):
        print(line)


main(*sys.argv[1:])
