"""Calls on a drawing (01, "Stems and masks", "Path records"; of lone calls, "The script").

Written by 01 and the readings of it, after the Rust's `HintingSink` had been read.
"""

from dataclasses import dataclass, field, replace

from .hintmap import HintMap, built_map, initial_map, mapped
from .numbers import ONE, output, product
from .stems import ALL_ACTIVE, MAX_HINTS, Stem, mask_of
from .zones import MOST_PAIRS, Params, State, state_of

# Answers, commands and records by their numbers.
OK, BAD_SCRIPT, BAD_SCALE, BAD_BLUES, BAD_COMMAND, BAD_MASK, NO_ROOM = range(7)
STEM, HINT_MASK, COUNTER_MASK, CLEAR, MOVE, LINE, CURVE, CLOSE, FINISH = range(1, 10)
MOVED, LINED, CURVED, CLOSED, FINISHED = range(1, 6)

# The methods of a drawing behind the calls: those without records, and those that may write some.
HINTING = {STEM: "stem", HINT_MASK: "hint_mask", COUNTER_MASK: "counter_mask", CLEAR: "clear", CLOSE: "close"}
DRAWING = {MOVE: "move", LINE: "line", CURVE: "curve", FINISH: "finish"}


@dataclass
class Drawing:
    """A map that is None is invalid; a start or a waiting line that is None is absent."""

    state: State
    stems: list = field(default_factory=list)
    mask: list = field(default_factory=lambda: ALL_ACTIVE)
    initial: HintMap = None
    map: HintMap = None
    start: tuple = None
    waiting: tuple = None

    def copy(self):
        """A drawing of its own: of what a drawing holds, stems alone are changed in place."""
        return replace(self, stems=[replace(stem) for stem in self.stems])

    def hinted(self, kind, operands):
        """The drawing after a call that has no records."""
        after = self.copy()
        getattr(after, HINTING[kind])(*operands)
        return after

    def drawn(self, kind, operands, room):
        """The drawing after a call with so much room, the answer's number, and the words."""
        after = self.copy()
        words = getattr(after, DRAWING[kind])(*operands)
        if len(words) > room:
            return self, NO_ROOM, []
        return after, OK, words

    # Hints.

    def stem(self, low, high):
        if len(self.stems) < MAX_HINTS and self.map is None:
            self.stems.append(Stem(low, high))

    def hint_mask(self, given):
        if mask_of(given) != self.mask:
            self.mask, self.map = mask_of(given), None

    def counter_mask(self, given):
        """The map is thrown away. The stems in it are used from then on."""
        self.build(mask_of(given))

    def clear(self):
        self.stems, self.mask, self.initial, self.map = [], ALL_ACTIVE, None, None

    def close(self):
        pass

    def build(self, mask):
        """A map of the active stems. The initial map is made first if need be."""
        if self.initial is None:
            self.initial = initial_map(self.state, self.stems)
        return built_map(self.state, mask, self.stems, self.initial)[0]

    # The path. Each of these but `device` answers the words of its records.

    def move(self, x, y):
        words = self.closing()
        self.start = x, y
        return words + [MOVED, *self.device(x, y)]

    def line(self, x, y):
        words = self.waited()
        self.waiting = (x, y), self.device(x, y)
        return words

    def curve(self, *ends):
        words = self.waited() + [CURVED]
        for x, y in zip(ends[::2], ends[1::2]):
            words += self.device(x, y)
        return words

    def finish(self):
        return self.closing() + [FINISHED]

    def device(self, x, y):
        """A point on the device."""
        if self.map is None:
            self.map = self.build(self.mask)
        return [output(product(x, self.state.scale)), output(mapped(self.map, y))]

    def waited(self):
        """The waiting line, which waits no more."""
        line, self.waiting = self.waiting, None
        return [] if line is None else [LINED, *line[1]]

    def closing(self):
        start, line = self.start, self.waiting
        self.start = self.waiting = None
        if start is None:
            return []
        if line is None or line[0] == start:
            return [CLOSED]
        return [LINED, *line[1], CLOSED]


def opened(params, scale, drawing=Drawing):
    """The answer's number and the drawing."""
    if scale < 1:
        number = BAD_SCALE
    elif max(map(len, params.lists())) > MOST_PAIRS:
        number = BAD_BLUES
    else:
        return OK, drawing(state_of(params, scale))
    return number, drawing(state_of(Params(), ONE))
