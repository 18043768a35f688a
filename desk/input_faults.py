"""Faults of netlists and libraries: the program names the first, and here are its place and others of its kind.

Found beside the program's own are all repeated names and missing directions of a netlist, all cells that a library lacks,
the first syntax fault of each library, and all used cells without a model.
"""
import os
from typing import NamedTuple

from libraries import Library
from netlists import Netlist
from places import finding_of
from refusals import read_rows, refusal_of

# Where the program names one of these, each cell has a model.
PAST_CELLS = (b"E12", b"E13", b"E15", b"E16", b"E17", b"E40")


class Found(NamedTuple):
    """A fault at a place of a file."""

    path: str
    offset: int
    words: bytes
    detail: bytes = b""


class InputFaults:
    """The faults of a netlist and its libraries, of which the program names the first. The words are those of its run."""

    def __init__(self, program, asked, words):
        self.program, self.asked, self.words = program, asked, words
        self.rows = read_rows()
        self.paths = {program.file(path): path for path in (asked.netlist, *asked.libraries.values())}

    def all(self, line):
        """The faults, of which one has just this line."""
        found = []
        if line[:3] not in (b"E01", b"E02"):
            netlist = Netlist(self.program.read(self.asked.netlist))
            found = [Found(self.asked.netlist, *fault) for fault in sorted(name_faults(netlist).items())]
            if line[:3] not in PAST_CELLS:
                found += self.library_faults(netlist.cells(os.fsencode(self.asked.top)), line[:3])
        return found if any(fault.words == line for fault in found) else [*found, self.placed(line)]

    def placed(self, line):
        """The fault of a line of the program at its place, or at the beginning of the netlist."""
        place = next(iter(finding_of(refusal_of("gdc: " + os.fsdecode(line), self.rows), self.words).places), None)
        if place is None or place.path not in self.paths:
            return Found(self.asked.netlist, 0, line)
        text = place.data[place.start : place.end][:60].split(b"\n")[0]
        detail = b"" if b" token " not in line else b"here stands " + text if text else b"the file ends here"
        return Found(self.paths[place.path], place.start, line, detail)

    def library_faults(self, cells, number):
        """Of each library its syntax fault, or else the cells that it lacks, and those without a model if that was met."""
        for corner, path in self.asked.libraries.items():
            fault = self.looked_up(path, corner, b"none")
            if fault.startswith(b"E03"):
                yield self.placed(fault)
                continue
            there = {name for name, _ in Library(self.program.read(path)).cells}
            for cell, offset in cells.items():
                if cell not in there:
                    yield Found(self.asked.netlist, offset, b"E11 unknown cell %s %s" % (cell, corner.encode()))
                elif number == b"E20":
                    fault = self.looked_up(path, corner, cell)
                    if fault.startswith(b"E20"):
                        yield self.placed(fault)

    def looked_up(self, path, corner, cell):
        """The refusal of a look-up, with the corner in place of the only one."""
        words = ("lookup", "--lib", self.program.file(path), "--cell", os.fsdecode(cell))
        _, line = self.program.run(*words, "--slew", "0", "--load", "0", "--outside", "edge")
        return line.replace(b" only ", b" %s " % corner.encode(), 1) if line[:3] in (b"E03", b"E20") else line


def name_faults(netlist):
    """The words of each name at fault, by its place: those that stand twice, and those without a direction or without a header."""
    faults, seen = {}, set()
    for module in netlist.every:
        for name, token, scope in sorted(module.names(module.statements), key=lambda event: event[1].start):
            if (name, scope) in seen:
                faults[token.start] = b"E06 repeated name " + name
            seen.add((name, scope))
        for declared, _ in module.half_declared(list(module.declared_in(module.statements))):
            faults.setdefault(declared.token.start, b"E08 port direction " + declared.name)
    return faults
