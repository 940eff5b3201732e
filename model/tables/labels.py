"""Tables of label runs (02, Ask 5).

The answers of the first two tables are worked by hand. In those from the third to the eighth the
numbers, the glyphs, the places and the sizes are; the words there, and all of the last, come from
the model's labels.py. Glyphs are made by hand; the last table puts them together from the seed in
labels_drawn.py.
"""

from .labels_by_hand import apart, by_hand
from .labels_drawn import groups
from .labels_form import row
from .labels_refused import commands, lengths, masks, numbers, two_faults
from .labels_rooms import rooms

# The names of the tables in the order in which they are stored.
LABELS = {
    "by hand": by_hand,
    "apart": apart,
    "lengths": lengths,
    "scale and counts": numbers,
    "commands": commands,
    "masks": masks,
    "two faults": two_faults,
    "rooms": rooms,
    "groups": groups,
}


def tables():
    return [[row(case, number) for number, case in enumerate(cases())] for cases in LABELS.values()]
