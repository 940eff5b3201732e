"""Makes the stored tables, or checks them: the head of the package says how."""

import re
import sys
from dataclasses import dataclass
from pathlib import Path
from types import ModuleType

from .tables import (
    calls, edges, edges_laws, figures, labels, labels_laws, maps, marked, scripts, scripts_again, writer, writer_laws
)
from .tables.form import Disagreement, file_of

ROOT = Path(__file__).resolve().parent.parent


@dataclass
class Stored:
    """A file of a crate, what makes it, and how many counts in `stdout` come before its own."""

    maker: ModuleType
    crate: str
    file: str
    counts_before: int = 0

    def path(self, file):
        return ROOT / "crates" / self.crate / file


STORED = [
    Stored(figures, "test_figures", "stdin"),
    Stored(maps, "test_maps", "stdin", counts_before=1),
    Stored(calls, "test_calls", "stdin"),
    Stored(scripts, "test_scripts", "data/scripts.bin"),
    Stored(writer, "test_writer", "data/writer.bin"),
    Stored(edges, "test_edges", "data/edges.bin"),
    Stored(labels, "test_labels", "data/labels.bin"),
]
# The files whose scripts a crate writes again, in the order of its lines on them.
SCRIPTS_CRATE, SCRIPTS_FILES = ROOT / "crates" / "test_scripts", ["data/scripts.bin", "data/sample.bin"]


def say(path, verdict):
    print(f"{path.relative_to(ROOT)}: {verdict}")


HELD_TO = {
    "figures that 01 marks, and its whole case": marked,
    "what 02 says of scripts that are written and read back": writer_laws,
    "what 01 and 02 say of edges that are listed": edges_laws,
    "what 02 says of label runs": labels_laws,
}


def holds_to(what, figures):
    """Whether the model gives what 01 or 02 says."""
    count, differing = figures.differing()
    print(f"{what}: {count} tried, {len(differing)} differ")
    for name in differing:
        print(f"    {name}")
    return not differing


def tables_of(stored):
    """Its tables, or None if the model differs from a row that is written by hand."""
    try:
        return stored.maker.tables()
    except Disagreement as found:
        say(stored.path(stored.file), f"can't be made: {found}")
        return None


def is_stored(stored, tables):
    path = stored.path(stored.file)
    return path.is_file() and path.read_bytes() == file_of(tables)


def counts_rows(stored, tables):
    """Whether the counts in `stdout` are those of the tables."""
    counts = [int(count) for count in re.findall(r": (\d+) run", stored.path("stdout").read_text())]
    return counts[stored.counts_before :][: len(tables)] == [len(rows) for rows in tables]


def check(stored, tables):
    """Whether the file and the counts are what the tables make."""
    same, counted = is_stored(stored, tables), counts_rows(stored, tables)
    say(stored.path(stored.file), "same" if same else "differs")
    say(stored.path("stdout"), "same counts of rows" if counted else "differs in its counts of rows")
    return same and counted


def counts_again():
    """Whether `stdout` says what becomes of scripts that are written again."""
    path = SCRIPTS_CRATE / "stdout"
    try:
        lines = [scripts_again.line((SCRIPTS_CRATE / file).read_bytes()) for file in SCRIPTS_FILES]
    except Disagreement as found:
        say(path, f"can't be compared: {found}")
        return False
    same = re.findall("^written again: .*", path.read_text(), re.MULTILINE) == lines
    say(path, f"{'same' if same else 'differs in its'} counts of scripts written again")
    return same


def write(stored, tables):
    path = stored.path(stored.file)
    if is_stored(stored, tables):
        say(path, "same")
    else:
        path.write_bytes(file_of(tables))
        say(path, "written")


def main(arguments):
    """Answers the status. A model that differs from 01 or 02, or from what is by hand, writes nothing."""
    if arguments not in ([], ["--check"]):
        print("python3 -m model [--check]")
        return 2
    fine = all([holds_to(what, figures) for what, figures in HELD_TO.items()])
    made = [(stored, tables_of(stored)) for stored in STORED]
    if arguments:
        same = [tables is not None and check(stored, tables) for stored, tables in made]
        return 0 if all([*same, counts_again(), fine]) else 1
    if not fine or None in [tables for _, tables in made]:
        return 1
    for stored, tables in made:
        write(stored, tables)
    return 0


if __name__ == "__main__":
    sys.exit(main(sys.argv[1:]))
