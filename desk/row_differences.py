"""How the rows of two SDF files differ: at which rows, by how much, and which rows only one of them has."""
import collections
from typing import NamedTuple

from delay_rows import EDGES, MEMBERS, ONLY, Row, corners_of, picoseconds


class Difference(NamedTuple):
    """The rows of two files that have the same names, and the numbers of both where they differ most.

    The size is the second number less the first. It is None where only one of the two has a number.
    """

    row: Row
    edge: str
    member: str
    first: int
    second: int

    @property
    def size(self):
        return None if None in (self.first, self.second) else self.second - self.first

    def is_past(self, tolerance):
        return self.size is None or abs(self.size) > tolerance

    def text(self, corners):
        """A line with what differs. Where there is one corner its name stands in place of the member's."""
        sign = "+" if self.size is not None and self.size > 0 else ""
        corner = self.member if len(corners) > 1 else ONLY
        numbers = f"{picoseconds(self.first)} {picoseconds(self.second)} {sign}{picoseconds(self.size)}"
        return f"{self.row.kind} {self.row.name()} {self.edge} {corner} {numbers}"


def order(difference):
    """The largest comes first, and before it what has no size."""
    return (0, 0) if difference.size is None else (1, -abs(difference.size))


def edge_differences(row, edge, first, second):
    """The differences of two delays at each member that both have. Where there is none, one of them may have a number alone."""
    both = [at for at in range(len(MEMBERS)) if first[at] is not None and second[at] is not None]
    if both:
        return [Difference(row, edge, MEMBERS[at], first[at], second[at]) for at in both]
    alone = [at for at in range(len(MEMBERS)) if (first[at], second[at]) != (None, None)]
    return [Difference(row, edge, MEMBERS[at], first[at], second[at]) for at in alone[:1]]


def row_difference(first, second):
    """Where two rows differ most, or None where neither has a number."""
    found = []
    for edge, *delays in zip(EDGES, first.delays, second.delays):
        found += edge_differences(first, edge, *delays)
    return min(found, key=order, default=None)


def keyed(rows):
    """Rows by their names. Of several with the same names each has its number."""
    counts, found = collections.Counter(), {}
    for row in rows:
        names = row.kind, row.names
        found[names, counts[names]] = row
        counts[names] += 1
    return found


class Comparison:
    """The rows of two files side by side: the differences, the largest first, and the rows that only one of the two has."""

    def __init__(self, first, second):
        ours, theirs = keyed(first), keyed(second)
        self.corners = corners_of([*first, *second])
        self.common = [key for key in ours if key in theirs]
        found = [row_difference(ours[key], theirs[key]) for key in self.common]
        self.differences = sorted((difference for difference in found if difference), key=order)
        self.only_first = [row for key, row in ours.items() if key not in theirs]
        self.only_second = [row for key, row in theirs.items() if key not in ours]

    def past(self, tolerance):
        return [difference for difference in self.differences if difference.is_past(tolerance)]

    def largest(self):
        """The largest size of a difference, or 0."""
        return max((abs(difference.size) for difference in self.differences if difference.size is not None), default=0)
