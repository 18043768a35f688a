"""What the numbers of a run of `calc` rest on: nets without parasitics, look-ups outside the tables, slews behind wires."""
import os
from typing import NamedTuple

from commands import Command
from delay_rows import read_sdf
from endings import reading
from flat_design import driven_nets
from parasitics import SpefFile
from row_differences import Comparison

FILE_KEYS = frozenset(("--netlist", "--spef", "--lib", "--lib-min", "--lib-typ", "--lib-max"))
DEFAULTS = {"--missing": "refuse", "--outside": "refuse", "--wire-slew": "none"}


class Refused(Exception):
    """The line by which the program refuses a run."""


class Calculation:
    """A run of `calc`, and others that differ from it in the value of one key. Its words may name packed files."""

    def __init__(self, program, words):
        self.program = program
        behind_keys = zip(["", *words], words)
        plain = [reading(program.file, word) if key in FILE_KEYS else word for key, word in behind_keys]
        self.command = Command(plain)
        self.own = self.sdf(plain)

    def value(self, key):
        return self.command.values.get(key, DEFAULTS.get(key))

    def sdf(self, words):
        """The path of the SDF file of a run with these words."""
        written, refused = self.program.run(*words)
        if refused:
            raise Refused("gdc: " + os.fsdecode(refused))
        return self.program.write(written)

    def paths(self, key, value):
        """The paths through cells of the run where the key has this value."""
        if value == self.value(key):
            written = self.own
        else:
            values = {**self.command.values, key: value}
            written = self.sdf([self.command.name, *(word for pair in values.items() for word in pair)])
        return [row for row in read_sdf(self.program, written) if row.kind == "path"]


class Net(NamedTuple):
    """A net of the design that has a driver and a sink."""

    name: bytes
    driver: bytes


def nets_of(calculation):
    """The nets of the design that have a driver and a sink, as the program lists them."""
    library = calculation.value(calculation.command.library_key())
    words = ["--netlist", calculation.value("--netlist"), "--top", calculation.value("--top"), "--lib", library]
    listed, _ = calculation.program.run("flat", *words)
    return [Net(name, driver) for name, driver, _ in driven_nets(listed)]


def section_names(data):
    """The nets that have a section in a SPEF file, which the program takes."""
    file = SpefFile(data)
    return {file.names.net(section.part.words[1]) for section in file.sections()}


def without_parasitics(calculation, nets):
    """The nets that the SPEF file lacks. Where the run refuses such a net it has none."""
    if calculation.value("--missing") != "zero":
        return []
    known = section_names(reading(calculation.program.read, calculation.value("--spef")))
    return [net for net in nets if net.name not in known]


class Change(NamedTuple):
    """What two values of a key make of the delays of paths.

    The differences are those of the paths that differ, the largest first, or None where the run with one of the values is refused by
    a line. A path has a delay at each edge of its output that takes a transition.
    """

    values: tuple
    differences: list
    corners: tuple = ()
    paths: int = 0
    delays: int = 0
    moved: int = 0
    refused: str = ""


def delays_of(rows):
    return [delay for row in rows for delay in row.delays if set(delay) != {None}]


def change(calculation, key, values):
    """What changes in the delays of paths where the key has the second of two values in place of the first."""
    try:
        first, second = (calculation.paths(key, value) for value in values)
    except Refused as refused:
        return Change(values, None, refused=str(refused))
    compared, delays = Comparison(first, second), delays_of(first)
    moved = sum(one != other for one, other in zip(delays, delays_of(second)))
    return Change(values, compared.past(0), compared.corners, len(first), len(delays), moved)


class Coverage:
    """What a run rests on."""

    def __init__(self, calculation):
        self.nets = nets_of(calculation)
        self.without = without_parasitics(calculation, self.nets)
        own = calculation.value("--outside")
        # Where a look-up outside its table is refused the run has none.
        self.outside = change(calculation, "--outside", (own, own) if own == "refuse" else ("edge", "extend"))
        self.wire_slew = calculation.value("--wire-slew")
        self.slews = change(calculation, "--wire-slew", ("none", "rss"))
