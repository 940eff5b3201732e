"""What the tools share that give a file to a program of the project and print what it answers."""

import struct
import subprocess
import sys

REFUSED, UNREADABLE, CANNOT_RUN = 1, 2, 3
OK = 0
ANSWERS = ["OK", "BAD_SCRIPT", "BAD_SCALE", "BAD_BLUES", "BAD_COMMAND", "BAD_MASK", "NO_ROOM", "SCRIPT_ROOM"]
MOST_BYTES = 65536
ANSWER_BYTES = 8


def stop(tool, status, why):
    print(f"{tool}: {why}", file=sys.stderr)
    sys.exit(status)


def words_of(data):
    count = len(data) // 4
    return struct.unpack(f"<{count}i", data[: 4 * count])


def contents(tool, path, most=-1):
    """The bytes of a file, or the first of them."""
    try:
        with open(path, "rb") as file:
            return file.read(most)
    except OSError as error:
        stop(tool, UNREADABLE, f"cannot read {path}: {error.strerror}")


def answer_of(tool, command, given):
    """The number and the place that a program answers, and the bytes behind them."""
    ran = subprocess.run(command, input=given, stdout=subprocess.PIPE, check=False)
    if ran.returncode != 0 or len(ran.stdout) < ANSWER_BYTES:
        stop(tool, CANNOT_RUN, f"the program cannot be run here: status {ran.returncode}")
    number, place = words_of(ran.stdout[:ANSWER_BYTES])
    return number, place, ran.stdout[ANSWER_BYTES:]
