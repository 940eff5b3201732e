"""Tables of scripts that are written, then of scripts that are read back (02, Ask 1).

The answers of the first table are worked by hand. In the next eight the numbers, the places and the
sizes are; the bytes there, and all of the next two, come from the model's writer.py. In the last
three the numbers and the places of refusals are by hand, and the rest is the model's. Inputs are
made by hand, but for those of one table, which come from the seed in writer_drawn.py.
"""

from .writer_by_hand import by_hand
from .writer_drawn import glyphs
from .writer_form import read_row, written_row
from .writer_read import again, read, refused
from .writer_read import rooms as read_rooms
from .writer_refused import commands, left_over, masks, numbers, two_faults
from .writer_rooms import parameters, rooms, sizes

# The names of the tables in the order in which they are stored.
WRITTEN = {
    "by hand": by_hand,
    "scale and counts": numbers,
    "commands": commands,
    "masks": masks,
    "left over": left_over,
    "two faults": two_faults,
    "rooms": rooms,
    "sizes": sizes,
    "parameters": parameters,
    "glyphs": glyphs,
    "written again": again,
}
READ = {"read back": read, "read refused": refused, "read rooms": read_rooms}


def tables():
    written = [[written_row(case, number) for number, case in enumerate(cases())] for cases in WRITTEN.values()]
    return written + [[read_row(case, number) for number, case in enumerate(cases())] for cases in READ.values()]
