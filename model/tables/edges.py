"""Tables of edges that are listed after so many commands of a script (02, Ask 2).

The answers of the first table are worked by hand, and so are those of full maps and of maps in a
list of twelve, but for those with an em box. In the tables of refusals the numbers and the places
are; in those of kinds and of rooms the counts are too. The rest comes from the model's edges.py.
Scripts are made by hand, but for those of one table, which come from the seed in edges_drawn.py.
"""

from .edges_by_hand import by_hand
from .edges_drawn import drawn
from .edges_form import filled_row, row
from .edges_maps import em_boxes, full_maps, kinds, of_twelve, rooms
from .edges_scripts import commands, good_scripts, order, refusals

# The names of the tables in the order in which they are stored.
SEEN = {
    "by hand": by_hand,
    "kinds": kinds,
    "em box": em_boxes,
    "full maps": full_maps,
    "rooms": rooms,
    "commands": commands,
    "good scripts": good_scripts,
    "refused": refusals,
    "two faults": order,
    "drawn": drawn,
}
# What is listed into a list of twelve records.
LENT = {"of twelve": of_twelve}


def tables():
    seen = [[row(case, number) for number, case in enumerate(cases())] for cases in SEEN.values()]
    return seen + [[filled_row(case, number) for number, case in enumerate(cases())] for cases in LENT.values()]
