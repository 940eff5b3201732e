"""Reads a text, which says what a script is written from. docs/TEXT.md explains its lines."""

import codecs
import re
from typing import NamedTuple

ONE = 1 << 16
LOW, HIGH = -(1 << 31), (1 << 31) - 1
# Half of 1/65536 has 17 decimal digits, so a digit behind the 17th changes no rounding.
HALF_DIGITS = 17
# A whole number of so many digits lies outside every range here.
MANY_DIGITS = 12
SHOWN = 40
MOST_PAIRS = 7
HEADER_WORDS, LEAST_PARAMS = 8, 8
COUNTS = slice(4, 8)

# What a line can begin with: a number that is given at most once, a list, or a command. The numbers behind the scale,
# and then the lists, have the order of the parameter words.
SCALE, GROUP = "scale", "language-group"
ONCE = [SCALE, "blue-scale", "blue-shift", "blue-fuzz", GROUP]
LISTS = ["blues", "other-blues", "family-blues", "family-other-blues"]
# The kind of each command, and how many words stand behind it: numbers, or the length of a mask.
COMMANDS = {"stem": (1, 2), "mask": (2, 1), "counter": (3, 1), "clear": (4, 0), "move": (5, 2), "line": (6, 2),
            "curve": (7, 6), "close": (8, 0), "finish": (9, 0)}
OPERANDS = dict(COMMANDS.values())
MASK_KINDS = 2, 3
KNOWN = f"a command ({', '.join(COMMANDS)}) or a parameter ({', '.join([*ONCE, *LISTS])})"

DECIMAL = re.compile(r"([+-]?)([0-9]+)(?:\.([0-9]+))?")
WHOLE = re.compile(r"([+-]?)([0-9]+)")
BITS = re.compile(r"bits:([+-]?)(?:0x([0-9a-fA-F]+)|([0-9]+))")
BYTES = re.compile(r"(?:[0-9a-fA-F]{2})+")


class Fault(Exception):
    """The line of a text that is wrong, what was expected there and what was found."""

    def __init__(self, line, expected, found):
        super().__init__(f"expected {expected}, found {found}")
        self.line = line


class Given(NamedTuple):
    """What a script is written from; then the line of the scale, and the line that each command word comes from."""

    scale: int
    params: list
    commands: list
    masks: bytes
    scale_line: int
    lines: list


class Line(NamedTuple):
    """A line that says something: its number, its first word, and the words behind that."""

    number: int
    name: str
    words: list

    def fault(self, expected, found):
        return Fault(self.number, expected, found)


# Numbers and masks.


def shown(word):
    return repr(word if len(word) <= SHOWN else f"{word[:SHOWN]}..")


def signed(sign, size):
    return -size if sign == "-" else size


def whole_of(digits):
    """The number of some decimal digits. One of too many for any range is cut, and stays outside."""
    return int(digits.lstrip("0")[:MANY_DIGITS] or "0")


def nearest(whole, part):
    """The nearest number of 65536ths, and of two the greater, from the digits before and behind a point."""
    unit = 10**HALF_DIGITS
    exact = whole_of(whole) * unit + int(part[:HALF_DIGITS].ljust(HALF_DIGITS, "0"))
    return (2 * ONE * exact + unit) // (2 * unit)


def within(line, word, value, what, least=LOW, most=HIGH):
    if not LOW <= value <= HIGH:
        raise line.fault(f"{what} from {least} to {most}", shown(word))
    return value


def bits_of(line, word):
    """The bits of a number."""
    decimal, bits = DECIMAL.fullmatch(word), BITS.fullmatch(word)
    if decimal:
        sign, whole, part = decimal.groups("")
        return within(line, word, signed(sign, nearest(whole, part)), "a number", "-32768", "32767.99999")
    if bits:
        sign, hexadecimal, whole = bits.groups("")
        size = int(hexadecimal, 16) if hexadecimal else whole_of(whole)
        return within(line, word, signed(sign, size), "bits")
    raise line.fault("a number, such as -15, 0.03125 or bits:2048", shown(word))


def group_of(line, word):
    whole = WHOLE.fullmatch(word)
    if not whole:
        raise line.fault("a whole number", shown(word))
    sign, digits = whole.groups()
    return within(line, word, signed(sign, whole_of(digits)), "a whole number")


def counted(count):
    return f"{count} number{'' if count == 1 else 's'}"


def check_count(line, count):
    if count == 0 and line.words:
        raise line.fault(f"nothing after '{line.name}'", shown(line.words[0]))
    if len(line.words) != count:
        raise line.fault(f"{counted(count)} after '{line.name}'", len(line.words))


def numbers_of(line):
    return [bits_of(line, word) for word in line.words]


def mask_of(line):
    for word in line.words:
        if not BYTES.fullmatch(word):
            raise line.fault(f"pairs of hexadecimal digits after '{line.name}'", shown(word))
    return bytes.fromhex("".join(line.words))


# Lines.


class Reader:
    """What the lines so far have said: what is given once has its value and its line."""

    def __init__(self):
        self.once = {}
        self.lists = {name: [] for name in LISTS}
        self.commands, self.masks, self.lines = [], bytearray(), []

    def read(self, line):
        if line.name in ONCE:
            self.set_once(line)
        elif line.name in LISTS:
            self.add_pairs(line)
        elif line.name in COMMANDS:
            self.add_command(line)
        else:
            raise line.fault(KNOWN, shown(line.name))

    def set_once(self, line):
        if line.name in self.once:
            _, first = self.once[line.name]
            raise line.fault(f"'{line.name}' once", f"it again, first in line {first}")
        check_count(line, 1)
        value_of = group_of if line.name == GROUP else bits_of
        self.once[line.name] = value_of(line, line.words[0]), line.number

    def add_pairs(self, line):
        words = self.lists[line.name]
        if not line.words or len(line.words) % 2 != 0:
            raise line.fault(f"pairs of numbers after '{line.name}'", counted(len(line.words)))
        pairs = (len(words) + len(line.words)) // 2
        if pairs > MOST_PAIRS:
            raise line.fault(f"at most {MOST_PAIRS} pairs of '{line.name}' in all", pairs)
        words += numbers_of(line)

    def add_command(self, line):
        kind, count = COMMANDS[line.name]
        if kind in MASK_KINDS:
            mask = mask_of(line)
            self.masks += mask
            words = [kind, len(mask)]
        else:
            check_count(line, count)
            words = [kind, *numbers_of(line)]
        self.commands += words
        self.lines += [line.number] * len(words)

    def given(self, last):
        if SCALE not in self.once:
            raise Fault(last, f"'{SCALE}' in a line", "the end of the text")
        scale, scale_line = self.once[SCALE]
        params = [self.once[name][0] if name in self.once else 0 for name in ONCE[1:]]
        params += [len(words) // 2 for words in self.lists.values()]
        for words in self.lists.values():
            params += [*words, *[0] * (2 * MOST_PAIRS - len(words))]
        return Given(scale, params, self.commands, bytes(self.masks), scale_line, self.lines)


def words_in(number, data):
    """The words of a line, without its comment."""
    if 0 in data:
        raise Fault(number, "text", "a zero byte")
    try:
        line = data.decode("utf-8")
    except UnicodeDecodeError as error:
        raise Fault(number, "text in UTF-8", f"the byte 0x{data[error.start]:02x}") from None
    said, _, _ = line.removesuffix("\r").partition("#")
    return re.findall(r"[^ \t]+", said)


def given_of(text):
    """What a text says, from its bytes. Raises its first fault."""
    lines = text.removeprefix(codecs.BOM_UTF8).removesuffix(b"\n").split(b"\n")
    reader = Reader()
    for number, data in enumerate(lines, 1):
        words = words_in(number, data)
        if words:
            reader.read(Line(number, words[0], words[1:]))
    return reader.given(len(lines))


def line_at(given, place):
    """The line of the command whose kind stands at a place of the script that is written from this."""
    at, index = place - HEADER_WORDS - LEAST_PARAMS - 2 * sum(given.params[COUNTS]), 0
    while index < at:
        kind = given.commands[index]
        # In a script a mask has its start too.
        at -= kind in MASK_KINDS
        index += 1 + OPERANDS[kind]
    return given.lines[index]
