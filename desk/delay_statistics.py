"""Counts, sums and quantiles of delays, and the rows with the worst."""
import heapq
from typing import NamedTuple

from delay_rows import EDGES, Row, at_corner

PERCENTS = (50, 90, 99)


class Worst(NamedTuple):
    """A row by the larger of its delays at a corner."""

    number: int
    edge: str
    row: Row


def numbers_of(row, corner):
    """The delays of a row at a corner: one of a wire whose rise and fall are equal, and else two."""
    rise, fall = (at_corner(delay, corner) for delay in row.delays)
    return [rise] if row.kind == "wire" and rise == fall else [rise, fall]


def worst_of(row, corner):
    """The larger delay of a row, the rise where both are equal, or None where it has none."""
    found = [(number, edge) for number, edge in zip(numbers_of(row, corner), EDGES) if number is not None]
    return Worst(*max(found, key=lambda delay: delay[0]), row) if found else None


class Statistics:
    """What is said of rows of one kind at a corner. Numbers of time are femtoseconds, or None where there are no delays."""

    def __init__(self, rows, corner, most):
        numbers = [number for row in rows for number in numbers_of(row, corner)]
        self.corner, self.rows = corner, len(rows)
        self.numbers = sorted(number for number in numbers if number is not None)
        self.without = len(numbers) - len(self.numbers)
        worst = filter(None, (worst_of(row, corner) for row in rows))
        self.worst = heapq.nlargest(most, worst, key=lambda one: one.number)

    def quantile(self, percent):
        """The least delay that so many percent of all do not pass."""
        if not self.numbers:
            return None
        return self.numbers[max(0, -(-percent * len(self.numbers) // 100) - 1)]

    def counts(self):
        return {
            "rows": self.rows,
            "delays": len(self.numbers),
            "without": self.without,
            "zero": self.numbers.count(0),
            "negative": sum(number < 0 for number in self.numbers),
        }

    def times(self):
        return {
            "sum": sum(self.numbers),
            "least": self.quantile(0),
            **{f"{percent}%": self.quantile(percent) for percent in PERCENTS},
            "largest": self.quantile(100),
        }


class Report:
    """The statistics of a file's wires and paths at each of its corners."""

    def __init__(self, path, rows, corners, most):
        self.path, self.corners = path, corners
        by_kind = {"wire": [], "path": []}
        for row in rows:
            by_kind[row.kind].append(row)
        self.kinds = {kind: [Statistics(rows, corner, most) for corner in corners] for kind, rows in by_kind.items()}
