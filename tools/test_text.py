"""Holds tools/text.py to texts whose meaning stands here by hand, and to scripts of the model.

    python3 tools/test_text.py     names what differs, and ends in 'texts: N tried, 0 differ' or with status 1
"""

import random
import sys
from decimal import Decimal
from fractions import Fraction
from pathlib import Path
from textwrap import indent

from text import Fault, Given, given_of, line_at

ROOT = Path(__file__).resolve().parent.parent
sys.path.insert(0, str(ROOT))

from model import writer
from model.calls import CLEAR, CLOSE, COUNTER_MASK, CURVE, FINISH, HINT_MASK, LINE, MOVE, OK, STEM
from model.numbers import HIGH, LOW, ONE, nearest
from model.script import COMMANDS, MOST_BYTES, SCALE, commands_in, params_in, words_of
from model.tables.writer_read import stored_scripts

SEED, DRAWN = 2026, 3000
# The lines of longer scripts are not looked up, each from the first on.
LONG = 4096
PARAM_WORDS = 64
A_NUMBER = "expected a number, such as -15, 0.03125 or bits:2048, found"
IN_RANGE = "expected a number from -32768 to 32767.99999, found"
IN_BITS = "expected bits from -2147483648 to 2147483647, found"
A_GROUP = "expected a whole number"
A_NAME = (
    "expected a command (stem, mask, counter, clear, move, line, curve, close, finish) or a parameter (scale, "
    "blue-scale, blue-shift, blue-fuzz, language-group, blues, other-blues, family-blues, family-other-blues), found"
)
NO_SCALE = "expected 'scale' in a line, found the end of the text"

# Numbers as they are written, and their bits. 0.00000762939453125 is half of 1/65536.
NUMBERS = {
    "0": 0, "-0": 0, "+0": 0, "0.0": 0, "1": ONE, "+1": ONE, "-1": -ONE, "007": 7 * ONE, "-15": -15 * ONE,
    "0.5": 32768, "-0.5": -32768, "+1.5": 98304, "0.03125": 2048, "0.039625": 2597, "0.016": 1049, "3.125": 204800,
    "0.0000152587890625": 1, "-0.0000152587890625": -1, "0.00001": 1, "0.000001": 0,
    "0.00000762939453125": 1, "-0.00000762939453125": -1, "0.00000762939453124": 0, "-0.00000762939453124": 0,
    "0.00000762939453124999999": 0, "0.000007629394531250": 1, "0.00000762939453125000001": 1,
    "0.00002288818359375": 2, "-0.00002288818359375": -2, "0.00002288818359374": 1, "-0.00002288818359374": -1,
    "32767": 32767 * ONE, "32767.9999847412109375": HIGH, "32767.99999": HIGH, "32767.99999237060546874": HIGH,
    "-32768": LOW, "-32768.00000762939453124": LOW, "-32767.9999847412109375": -HIGH, "-32767.99999237060546875": LOW,
    "0" * 5000 + "2." + "0" * 5000 + "9": 2 * ONE,
    "bits:0": 0, "bits:-0": 0, "bits:1": 1, "bits:+1": 1, "bits:-1": -1, "bits:2048": 2048, "bits:007": 7,
    "bits:2147483647": HIGH, "bits:-2147483648": LOW, "bits:0x800": 2048, "bits:0x7fffffff": HIGH, "bits:0xAb": 171,
    "bits:-0x80000000": LOW, "bits:+0x10": 16, "bits:" + "0" * 5000 + "5": 5,
}

# A text, and what it means: scale, parameter words by their places, commands, mask bytes, the line of the scale, and
# the line of each command word.
GOOD = [
    (b"scale 1", ONE, {}, [], b"", 1, []),
    (b"scale 1\n", ONE, {}, [], b"", 1, []),
    (b"\n\nscale 1\n\n\n", ONE, {}, [], b"", 3, []),
    (b"\r\nscale 1\r\nmove 0 1\r\n", ONE, {}, [5, 0, ONE], b"", 2, [3, 3, 3]),
    (b"\xef\xbb\xbfscale 1\nclose", ONE, {}, [8], b"", 1, [2]),
    (b"# first\n \t \n\tscale\t 1   # here # and here\n#\nclose#behind it\n", ONE, {}, [8], b"", 3, [5]),
    ("scale 1 # größer\n# \u2028 −1 \U0001f600\nclear".encode(), ONE, {}, [4], b"", 1, [3]),
    (b"#scale 2\nscale 1#000", ONE, {}, [], b"", 2, []),
    (b"scale 0", 0, {}, [], b"", 1, []),
    (b"clear\nscale bits:-5", -5, {}, [4], b"", 2, [1]),
    (
        b"scale 0.5\nstem 16 -4.5\nmask 80\ncounter 4001\nclear\nmove 1 2\nline 3 4\ncurve 1 2 3 4 5 6\nclose\nfinish",
        32768, {},
        [1, 16 * ONE, -294912, 2, 1, 3, 2, 4, 5, ONE, 2 * ONE, 6, 3 * ONE, 4 * ONE,
         7, ONE, 2 * ONE, 3 * ONE, 4 * ONE, 5 * ONE, 6 * ONE, 8, 9],
        b"\x80\x40\x01", 1, [2, 2, 2, 3, 3, 4, 4, 5, 6, 6, 6, 7, 7, 7, 8, 8, 8, 8, 8, 8, 8, 9, 10],
    ),
    (
        b"mask\nmask 80 c0ff\nmask # none\ncounter\ncounter ABcd EF\nscale 1\nmask 00112233445566778899aabbcc",
        ONE, {}, [2, 0, 2, 3, 2, 0, 3, 0, 3, 3, 2, 13],
        b"\x80\xc0\xff\xab\xcd\xef\x00\x11\x22\x33\x44\x55\x66\x77\x88\x99\xaa\xbb\xcc", 6,
        [1, 1, 2, 2, 3, 3, 4, 4, 5, 5, 7, 7],
    ),
    (
        b"blue-fuzz 1\nlanguage-group 1\nblue-scale 0.039625\nscale bits:1\nblue-shift 7",
        1, {0: 2597, 1: 7 * ONE, 2: ONE, 3: 1}, [], b"", 4, [],
    ),
    (
        b"finish\nfamily-blues 5 6\nblues -15 0\nscale 1\nblues 400 410 600 612.5\nclose\nfamily-blues 7 8",
        ONE,
        {4: 3, 6: 2, 8: -15 * ONE, 10: 400 * ONE, 11: 410 * ONE, 12: 600 * ONE, 13: 40140800, 36: 5 * ONE, 37: 6 * ONE,
         38: 7 * ONE, 39: 8 * ONE},
        [9, 8], b"", 4, [1, 6],
    ),
    (
        b"scale 1\nother-blues 1 2 3 4 5 6 7 8 9 10 11 12 13 14\nfamily-other-blues 2 1",
        ONE, {5: 7, 7: 1, 50: 2 * ONE, 51: ONE, **{22 + at: (1 + at) * ONE for at in range(14)}}, [], b"", 1, [],
    ),
    (b"scale 1\nlanguage-group -1", ONE, {3: -1}, [], b"", 1, []),
    (b"scale 1\nlanguage-group +2147483647", ONE, {3: HIGH}, [], b"", 1, []),
    (b"scale 1\nlanguage-group -2147483648", ONE, {3: LOW}, [], b"", 1, []),
]

# A text, the line of its first fault, and what is said of it.
FAULTY = [
    (b"", 1, NO_SCALE),
    (b"\n", 1, NO_SCALE),
    (b"# scale 1\nclose\n\n", 3, NO_SCALE),
    (b"scale 1\nstme 1 2\n", 2, f"{A_NAME} 'stme'"),
    (b"Scale 1", 1, f"{A_NAME} 'Scale'"),
    (b"scale=1", 1, f"{A_NAME} 'scale=1'"),
    (b"16 80", 1, f"{A_NAME} '16'"),
    (b"scale 1 2", 1, "expected 1 number after 'scale', found 2"),
    (b"close\nscale", 2, "expected 1 number after 'scale', found 0"),
    (b"scale # 1", 1, "expected 1 number after 'scale', found 0"),
    (b"scale 1\n\nscale 1", 3, "expected 'scale' once, found it again, first in line 1"),
    (b"blue-shift 7\nblue-shift x", 2, "expected 'blue-shift' once, found it again, first in line 1"),
    (b"language-group 0\nlanguage-group 0", 2, "expected 'language-group' once, found it again, first in line 1"),
    (b"scale one", 1, f"{A_NUMBER} 'one'"),
    (b"scale .5", 1, f"{A_NUMBER} '.5'"),
    (b"scale 5.", 1, f"{A_NUMBER} '5.'"),
    (b"scale 1e3", 1, f"{A_NUMBER} '1e3'"),
    (b"scale 1,5", 1, f"{A_NUMBER} '1,5'"),
    (b"scale 1_000", 1, f"{A_NUMBER} '1_000'"),
    (b"scale 1/32", 1, f"{A_NUMBER} '1/32'"),
    (b"scale --1", 1, f"{A_NUMBER} '--1'"),
    (b"scale 0x10", 1, f"{A_NUMBER} '0x10'"),
    (b"scale inf", 1, f"{A_NUMBER} 'inf'"),
    (b"scale - 1", 1, "expected 1 number after 'scale', found 2"),
    (b"scale 1\rclose", 1, f"{A_NUMBER} '1\\rclose'"),
    ("scale −1".encode(), 1, f"{A_NUMBER} '−1'"),
    ("scale \u0663".encode(), 1, f"{A_NUMBER} '\u0663'"),
    ("scale\u00a01".encode(), 1, f"{A_NAME} 'scale\\xa01'"),
    (b"scale 32768", 1, f"{IN_RANGE} '32768'"),
    (b"scale 32767.99999237060546875", 1, f"{IN_RANGE} '32767.99999237060546875'"),
    (b"scale -32768.00000762939453125", 1, f"{IN_RANGE} '-32768.00000762939453125'"),
    (b"scale " + b"9" * 5000, 1, f"{IN_RANGE} '{'9' * 40}..'"),
    (b"scale bits:2147483648", 1, f"{IN_BITS} 'bits:2147483648'"),
    (b"scale bits:-2147483649", 1, f"{IN_BITS} 'bits:-2147483649'"),
    (b"scale bits:0x80000000", 1, f"{IN_BITS} 'bits:0x80000000'"),
    (b"scale bits:-0x80000001", 1, f"{IN_BITS} 'bits:-0x80000001'"),
    (b"scale bits:" + b"1" * 5000, 1, f"{IN_BITS} 'bits:{'1' * 35}..'"),
    (b"scale bits:", 1, f"{A_NUMBER} 'bits:'"),
    (b"scale bits:1.5", 1, f"{A_NUMBER} 'bits:1.5'"),
    (b"scale bits:0X10", 1, f"{A_NUMBER} 'bits:0X10'"),
    (b"scale bits: 5", 1, "expected 1 number after 'scale', found 2"),
    (b"language-group 0.5", 1, f"{A_GROUP}, found '0.5'"),
    (b"language-group bits:1", 1, f"{A_GROUP}, found 'bits:1'"),
    (b"language-group 2147483648", 1, f"{A_GROUP} from -2147483648 to 2147483647, found '2147483648'"),
    (b"blues", 1, "expected pairs of numbers after 'blues', found 0 numbers"),
    (b"other-blues 1", 1, "expected pairs of numbers after 'other-blues', found 1 number"),
    (b"blues 1 2 3", 1, "expected pairs of numbers after 'blues', found 3 numbers"),
    (b"blues 1 two", 1, f"{A_NUMBER} 'two'"),
    (b"blues" + b" 1 2" * 8, 1, "expected at most 7 pairs of 'blues' in all, found 8"),
    (b"blues" + b" 1 2" * 6 + b"\nblues 1 2\nother-blues 1 2\nblues 1 2", 4,
     "expected at most 7 pairs of 'blues' in all, found 8"),
    (b"scale 1\nmove 0 0\nclose\nstem 16\n", 4, "expected 2 numbers after 'stem', found 1"),
    (b"stem 16 to 80", 1, "expected 2 numbers after 'stem', found 3"),
    (b"stem 16 80\nstem 16 8o", 2, f"{A_NUMBER} '8o'"),
    (b"move 1", 1, "expected 2 numbers after 'move', found 1"),
    (b"line 1 2 3 4", 1, "expected 2 numbers after 'line', found 4"),
    (b"curve 1 2 3 4 5", 1, "expected 6 numbers after 'curve', found 5"),
    (b"close 1", 1, "expected nothing after 'close', found '1'"),
    (b"clear all of it", 1, "expected nothing after 'clear', found 'all'"),
    (b"finish;", 1, f"{A_NAME} 'finish;'"),
    (b"mask 8", 1, "expected pairs of hexadecimal digits after 'mask', found '8'"),
    (b"mask 80 4", 1, "expected pairs of hexadecimal digits after 'mask', found '4'"),
    (b"mask 8 0", 1, "expected pairs of hexadecimal digits after 'mask', found '8'"),
    (b"mask 0x80", 1, "expected pairs of hexadecimal digits after 'mask', found '0x80'"),
    (b"counter g0", 1, "expected pairs of hexadecimal digits after 'counter', found 'g0'"),
    (b"scale 1\nclose # \0", 2, "expected text, found a zero byte"),
    (b"scale 1\n# \xc3\xa4\n# \xff\n", 3, "expected text in UTF-8, found the byte 0xff"),
    (b"scale 1\n# \xed\xa0\x80", 2, "expected text in UTF-8, found the byte 0xed"),
    ("scale 1\nclose".encode("utf-16"), 1, "expected text, found a zero byte"),
    (b"scale 1\n\xef\xbb\xbfclose", 2, f"{A_NAME} '\\ufeffclose'"),
    (b"stem\nstme\n\0", 1, "expected 2 numbers after 'stem', found 0"),
]

NAMES = {STEM: "stem", HINT_MASK: "mask", COUNTER_MASK: "counter", CLEAR: "clear", MOVE: "move", LINE: "line",
         CURVE: "curve", CLOSE: "close", FINISH: "finish"}
LISTS = ["blues", "other-blues", "family-blues", "family-other-blues"]


def said(text):
    """What a text means, or the line and the words of its fault."""
    try:
        return given_of(text)
    except Fault as fault:
        return fault.line, str(fault)


def meant(scale, params, *rest):
    return Given(scale, [params.get(place, 0) for place in range(PARAM_WORDS)], *rest)


def number_is(word, bits):
    return said(f"scale {word}".encode()) == meant(bits, {}, [], b"", 1, [])


def by_hand():
    for word, bits in NUMBERS.items():
        yield word, number_is(word, bits)
    for text, *meaning in GOOD:
        yield text, said(text) == meant(*meaning)
    for text, *fault in FAULTY:
        yield text, said(text) == tuple(fault)


def drawn():
    """Numbers of all lengths, and numbers at and beside halves, against the model's rounding."""
    random.seed(SEED)
    for _ in range(DRAWN):
        digits = f"{random.randrange(10 ** random.randrange(1, 25)):0{random.randrange(1, 25)}}"
        half = Decimal(random.randrange(2**32)) / (2 * ONE) + random.choice([-1, 0, 1]) * Decimal("1e-18")
        for word in (f"{random.randrange(32767)}.{digits}", f"{abs(half):f}"):
            for sign in ("", "-"):
                bits = nearest(Fraction(sign + word) * ONE)
                if LOW <= bits <= HIGH:
                    yield sign + word, number_is(sign + word, bits)


# Scripts, turned into texts.


def in_bits(number):
    return f"bits:{number}"


def in_hexadecimal(number):
    return f"bits:{'-' if number < 0 else ''}{abs(number):#x}"


def in_decimal(number):
    return f"{Decimal(number) / ONE:f}"


def text_of(script, form):
    """A text of a script, its numbers in one form, and the line of its first command. Each command takes a line."""
    words = words_of(script)
    params = params_in(words)
    lines = [f"scale {form(words[SCALE])}", f"language-group {words[11]}"]
    lines += [f"{name} {form(word)}" for name, word in zip(["blue-scale", "blue-shift", "blue-fuzz"], words[8:11])]
    for name, pairs in zip(LISTS, params.lists()):
        lines += [f"{name} {form(bottom)} {form(top)}" for bottom, top in pairs]
    first = len(lines) + 1
    for _, kind, operands in commands_in(script, words):
        masked = kind in (HINT_MASK, COUNTER_MASK)
        lines.append(" ".join([NAMES[kind], *([operands[0].hex()] if masked else map(form, operands))]))
    return "\n".join(lines).encode(), first


def meaning(script):
    """All that a script says, but for where the masks lie."""
    words = words_of(script)
    return words[SCALE], words[8 : words[COMMANDS]], [(kind, *rest) for _, kind, rest in commands_in(script, words)]


def written(given):
    """The script that the model writes."""
    number, place, _, script = writer.write(writer.Given(*given[:4]), MOST_BYTES)
    assert (number, place) == (OK, 0)
    return script


def means(text, script):
    """Whether a text is written as a script, or, where its masks do not lie end to end, as one that says the same."""
    again = written(given_of(text))
    return again == script if writer.end_to_end(script) else meaning(again) == meaning(script)


def lines_found(text, first):
    """Whether each place of a command leads to its line."""
    given = given_of(text)
    script = written(given)
    places = [place for place, *_ in commands_in(script, words_of(script))]
    return [line_at(given, place) for place in places] == list(range(first, first + len(places)))


def of_scripts():
    for number, script in enumerate(stored_scripts()):
        for form in (in_bits, in_hexadecimal, in_decimal):
            text, first = text_of(script, form)
            yield f"stored script {number} {form.__name__}", means(text, script)
        if len(script) < LONG:
            yield f"lines of stored script {number}", lines_found(text, first)


def of_examples():
    """Each example that is a script and a text, and the pages that show one."""
    for path in sorted(ROOT.glob("examples/*.bin")):
        text = path.with_suffix(".txt")
        yield text.name, means(text.read_bytes(), path.read_bytes())
    stem = indent((ROOT / "examples/stem.txt").read_text(), "    ")
    for page in ("README.md", "docs/TEXT.md"):
        yield page, stem in (ROOT / page).read_text()


def main():
    tried = [*by_hand(), *drawn(), *of_scripts(), *of_examples()]
    differing = [name for name, right in tried if not right]
    for name in differing:
        print(f"    {name}")
    print(f"texts: {len(tried)} tried, {len(differing)} differ")
    return 1 if differing else 0


sys.exit(main())
