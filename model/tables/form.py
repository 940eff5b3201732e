"""How tables are laid down. All words have four bytes, the least first."""

import struct


class Disagreement(Exception):
    """What is written down by hand, or said by 02, and what the model gives are not the same."""


def agree(by_hand, given, case):
    if by_hand != given:
        raise Disagreement(f"by hand {by_hand}, by the model {given}, in {case}")


def packed(words):
    return struct.pack(f"<{len(words)}i", *words)


def row(numbers):
    """A row of numbers, its count in front."""
    return packed([len(numbers), *numbers])


def file_of(tables):
    """For each table the count of its rows, and the rows, which are bytes."""
    return b"".join(packed([len(rows)]) + b"".join(rows) for rows in tables)
