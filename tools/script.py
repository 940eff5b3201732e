"""Gives what a text says to the program `assemble` and writes the script, as tools/assemble says.

    python3 script.py TEXT                       says the fault of a text, if it has one
    python3 script.py TEXT SCRIPT COMMAND...     COMMAND runs the program; SCRIPT may be empty
"""

import struct
import sys

from program import ANSWERS, MOST_BYTES, OK, REFUSED, UNREADABLE, answer_of, contents, stop
from text import Fault, given_of

TOOL = "assemble"


def refuse(why):
    print(why, file=sys.stderr)
    sys.exit(REFUSED)


def given_in(path):
    """What the text in a file says."""
    try:
        return given_of(contents(TOOL, path))
    except Fault as fault:
        refuse(f"{path}:{fault.line}: {fault}")


def input_of(given):
    """What the program takes."""
    words = [given.scale, *given.params, len(given.commands), len(given.masks), *given.commands]
    return struct.pack(f"<{len(words)}i", *words) + given.masks


def refusal(path, given, number, place):
    name = ANSWERS[number]
    if name == "BAD_SCALE":
        return f"{path}:{given.scale_line}: {name}, the scale is below 1/65536"
    if name == "SCRIPT_ROOM":
        return f"{path}: {name}, the script would have over {MOST_BYTES} bytes"
    return f"{path}: {name}, place {place}"


def put(path, script):
    """Writes a script to a file, or to standard output if the path is empty."""
    try:
        with open(path, "wb") if path else sys.stdout.buffer as file:
            file.write(script)
    except OSError as error:
        stop(TOOL, UNREADABLE, f"cannot write {path or 'to standard output'}: {error.strerror}")


def main(path, script="", *command):
    given = given_in(path)
    if command:
        number, place, data = answer_of(TOOL, command, input_of(given))
        if number != OK:
            refuse(refusal(path, given, number, place))
        put(script, data)


main(*sys.argv[1:])
