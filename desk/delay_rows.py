"""The rows of SDF files as the program shows them, with delays in whole femtoseconds."""
import os
import re
from typing import NamedTuple

from endings import reading
from files import Fault, shown
from places import finding_of
from refusals import read_rows, refusal_of

KINDS = ("wire", "path")
EDGES = ("rise", "fall")
MEMBERS = ("min", "typ", "max")
ONLY = "only"

# In a name a backslash takes the next byte with it, also a blank or a line end.
LINE = re.compile(rb"(?:[^\n\\]|\\[\s\S])+")
WORD = re.compile(rb"(?:[^ \n\\]|\\[\s\S])+")


class Row(NamedTuple):
    """A wire, or a path through a cell. A delay has a number or None for each member, at the rise and at the fall."""

    kind: str
    names: tuple
    delays: tuple

    def name(self):
        return " ".join(map(shown, self.names))


def femtoseconds(text):
    """A number of picoseconds with three decimals."""
    return None if text == b"-" else int(text.replace(b".", b""))


def picoseconds(number):
    """The text of so many femtoseconds, as the program writes it."""
    if number is None:
        return "-"
    return f"{'-' if number < 0 else ''}{abs(number) // 1000}.{abs(number) % 1000:03}"


def delay_of(text):
    members = tuple(map(femtoseconds, text.split(b":")))
    return members * 3 if len(members) == 1 else members


def rows_of(listed):
    """The rows that the program lists, without its last line, which sums them up."""
    known = {}
    for line in LINE.findall(listed)[:-1]:
        kind, *words = WORD.findall(line)
        count = 2 if kind == b"wire" else 3
        delays = tuple(known.get(text) or known.setdefault(text, delay_of(text)) for text in words[count:])
        yield Row(kind.decode(), tuple(words[:count]), delays if len(delays) == 2 else delays * 2)


def refused_file(path, plain, line):
    """The fault of an SDF file that the program refuses by this line. It reads the file at the path `plain`."""
    text = "gdc: " + os.fsdecode(line)
    refusal = refusal_of(text, read_rows())
    places = finding_of(refusal, ["show", "--sdf", plain]).places if refusal else []
    return Fault(path, places[0].data, places[0].start, text) if places else Fault(path, b"", 0, text)


def read_sdf(program, path):
    """The rows of an SDF file."""
    plain = reading(program.file, path)
    listed, refused = program.run("show", "--sdf", plain)
    if refused:
        raise refused_file(path, plain, refused)
    return list(rows_of(listed))


def corners_of(rows):
    """The corners at which rows have delays: one, where the members of each delay that are there are equal."""
    delays = {delay for row in rows for delay in row.delays}
    return MEMBERS if any(len(set(delay) - {None}) > 1 for delay in delays) else (ONLY,)


def at_corner(delay, corner):
    """The number of a delay at a corner, or None."""
    if corner == ONLY:
        return next((number for number in delay if number is not None), None)
    return delay[MEMBERS.index(corner)]
