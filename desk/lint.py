"""Lists all faults of a SPEF file at once, and mends what is asked for.

Each fault has a line FILE:LINE:COLUMN: E.. .., with the number and the words of the program and then what helps to find it.
The one at which the program stops is marked. Standard error has a line for each change of a mend.

Status 0: no fault. 1: faults are listed. 2: bad usage, or a file that cannot be read, or a mend that cannot be made.
"""
import argparse
import collections
import os
import statistics
import sys
import tempfile
import zlib

import files
import flat_design
from input_faults import InputFaults
from net_elements import ElementsReader
from net_trees import NetFaults
from node_names import shown
from parasitics import MISSING, SpefFile
from program import CannotRun, Program, add_program, program_path
from quantities import ONE
from spef_mends import CannotMend, Mender

FILE_LIMIT = 2**28
# The median wire of a chip is within these by far, in femtofarads and in ohms.
LIKELY = {b"*C_UNIT": (0.05, 2000.0, b"fF"), b"*R_UNIT": (0.1, 50000.0, b"ohm")}
OF_SPEF = (b"E04", b"E05", b"E30", b"E31", b"E32", b"E33", b"E34", b"E35", b"E36", b"E37", b"E60", b"E61")


def parser():
    made = argparse.ArgumentParser(
        prog="gdc-lint", description=__doc__, formatter_class=argparse.RawDescriptionHelpFormatter, allow_abbrev=False
    )
    made.add_argument("--spef", metavar="FILE", required=True, help="the file to look at; like the others it may be packed by gzip")
    made.add_argument("--netlist", metavar="FILE", help="the netlist of the design; without one the nets have the pins of their *CONN")
    made.add_argument("--top", metavar="MODULE", help="the top module of the netlist")
    made.add_argument("--lib", metavar="FILE", help="the library, or one for each corner:")
    for corner in ("min", "typ", "max"):
        made.add_argument(f"--lib-{corner}", metavar="FILE")
    made.add_argument("--missing", choices=("refuse", "zero"), default="refuse", help="zero: a net without a section is no fault")
    made.add_argument("--mend", metavar="OUT", help="write a copy of the SPEF file with these changes, whole or not at all:")
    made.add_argument("--loops", choices=("drop",), help="drop each resistor that closes a loop")
    made.add_argument("--pins", choices=("drop",), help="drop connections that are no pin of the net, and what hangs on them alone")
    made.add_argument("--slim", action="store_true", help="leave out comments, lines *N, coordinates and totals")
    made.add_argument("--port-loads", metavar="FILE", help="add loads: lines of a port and a number of femtofarads")
    add_program(made)
    return made


def read_words(words):
    """The words of the command line. A fault of them ends with status 2."""
    made = parser()
    asked = made.parse_args(words)
    corners = {corner: getattr(asked, f"lib_{corner}") for corner in ("min", "typ", "max")}
    asked.libraries = {"only": asked.lib} if asked.lib else {corner: path for corner, path in corners.items() if path}
    if asked.lib and any(corners.values()) or len(asked.libraries) not in (0, 1 if asked.lib else 3):
        made.error("give --lib, or all of --lib-min, --lib-typ and --lib-max")
    if len({bool(asked.netlist), bool(asked.top), bool(asked.libraries)}) > 1:
        made.error("--netlist, --top and a library go together")
    changes = (asked.loops, asked.pins, asked.slim, asked.port_loads)
    if bool(asked.mend) != any(changes):
        made.error("--mend goes with at least one of --loops, --pins, --slim and --port-loads")
    if (asked.pins or asked.port_loads) and not asked.netlist:
        made.error("--pins and --port-loads need the netlist")
    inputs = [path for path in (asked.spef, asked.netlist, asked.port_loads, *asked.libraries.values()) if path]
    if asked.mend and os.path.exists(asked.mend):
        if any(os.path.exists(path) and os.path.samefile(asked.mend, path) for path in inputs):
            made.error("--mend must not name an input")
    return asked


def calculation(program, asked, spef):
    """The words of the run whose faults are listed, over a SPEF file at a path."""
    if not asked.netlist:
        return ["wires", "--spef", spef]
    words = ["calc", "--netlist", program.file(asked.netlist), "--top", asked.top, "--spef", spef]
    for corner, path in asked.libraries.items():
        words += ["--lib" if corner == "only" else f"--lib-{corner}", program.file(path)]
    # Look-ups past a table and slews are no matter here.
    return words + ["--input-slew", "0", "--outside", "edge", "--missing", asked.missing]


class Listing:
    """The lines about all files, in the order of the netlist, the libraries and the SPEF file, and in each of its bytes."""

    def __init__(self, out):
        self.out = out
        self.counts = collections.Counter()

    def fault(self, path, places, offset, words, detail, is_own):
        self.counts[words[:3].decode()] += 1
        text = words + (b": " + detail if detail else b"") + (b" [gdc stops here]" if is_own else b"")
        self.line(path, places, offset, text)

    def line(self, path, places, offset, text):
        self.out.write(files.told(path, places.of(offset), text) + b"\n")

    def summary(self):
        total = sum(self.counts.values())
        counts = ", ".join(f"{number} {count}" for number, count in sorted(self.counts.items()))
        text = f"{total} fault{'s' * (total > 1)}: {counts}" if total else "no fault"
        self.out.write(text.encode() + b"\n")


class Wires:
    """The capacitances and resistances of the nets, to tell whether the units are likely."""

    def __init__(self, file):
        self.file = file
        self.sizes = {b"*C_UNIT": [], b"*R_UNIT": []}

    def add(self, elements):
        for keyword, size in ((b"*C_UNIT", elements.capacitance), (b"*R_UNIT", elements.resistance)):
            if size > 0:
                self.sizes[keyword].append(size)

    def medians(self):
        """The medians in femtofarads and in ohms, of units that are known."""
        units = {b"*C_UNIT": self.file.farads, b"*R_UNIT": self.file.ohms}
        known = {key: sizes for key, sizes in self.sizes.items() if sizes and units[key]}
        return {key: statistics.median(sizes) * float(units[key].fraction() / ONE.fraction()) for key, sizes in known.items()}

    def write(self, path, listing, count, unknown):
        medians = self.medians()
        for keyword, median in medians.items():
            least, most, unit = LIKELY[keyword]
            if not least <= median <= most:
                token = self.file.head_part.tokens[self.file.head.units[keyword]]
                text = b"warning: the median wire has %s %s: is %s right?" % (short(median), unit, keyword)
                listing.line(path, self.file.places, token.start, text)
        sizes = b" and ".join(b"%s %s" % (short(median), LIKELY[keyword][2]) for keyword, median in medians.items())
        text = b"%s: %d section%s" % (os.fsencode(path), count, b"s" * (count != 1))
        text += b", %d of nets without a driver and a sink in the netlist" % unknown if unknown else b""
        listing.out.write(text + (b"; the median wire has " + sizes if sizes else b"") + b"\n")


def short(number):
    return f"{number:.4g}".encode()


class SpefLint:
    """All faults of a SPEF file, and its mends where they are asked for."""

    def __init__(self, data, asked, design):
        self.asked, self.design = asked, design
        self.file = SpefFile(data)
        self.wires = Wires(self.file)
        self.mender = Mender(self.file, asked.spef, asked, design) if asked.mend else None
        self.count = self.unknown = 0
        if len(data) > FILE_LIMIT:
            self.file.add((-1,), 0, b"E50 limit file --spef", b"%d bytes" % len(data))
        self.read_sections()

    def read_sections(self):
        reader = ElementsReader(self.file)
        nets = NetFaults(self.file, self.design, not self.asked.netlist)
        met = set()
        for section in self.file.sections():
            self.count += 1
            elements = reader.read(section)
            met.update(self.nets_of(elements))
            if self.asked.slim and not section.broken:
                self.mender.slim(section)
            if section.broken or elements.net is None:
                continue
            self.wires.add(elements)
            judgement = nets.judge(elements)
            if self.mender:
                self.mender.section(elements, judgement)
        if self.design is not None:
            self.unknown = len(reader.nets.keys() - self.design.nets.keys())
            self.add_missing(met)

    def nets_of(self, elements):
        """The net of a section. If its name has an unknown index, its pins tell which it may be."""
        if elements.net is not None or self.design is None:
            return [elements.net]
        nodes = [*elements.listed, *elements.joined, *(node for _, counted in elements.capacitances for node in counted)]
        return [self.design.net_of[node] for node in nodes if node in self.design.net_of]

    def add_missing(self, met):
        """The nets without a section. Where a section has no name that can be read, it may be that of any of them."""
        if self.asked.missing == "zero" or self.file.unread or self.file.head.broken:
            return
        for name, pins in self.design.nets.items():
            if name not in met:
                detail = b"driven by " + shown(pins.driver)
                self.file.add((MISSING, pins.order), len(self.file.data), b"E33 missing net " + name, detail)

    def own(self):
        """The fault at which the program stops, or None."""
        return min(self.file.faults, key=lambda fault: (fault.rank, fault.offset), default=None)

    def list(self, listing, line):
        """Lists the faults. The line is that of the program, if it is of this file."""
        own = self.own() if line else None
        if line and (own is None or own.words != line):
            listing.fault(self.asked.spef, self.file.places, 0, line, b"", True)
            own = None
        for fault in sorted(self.file.faults, key=lambda fault: fault.offset):
            listing.fault(self.asked.spef, self.file.places, *fault[1:], fault is own)
        self.wires.write(self.asked.spef, listing, self.count, self.unknown)


def list_inputs(program, asked, listing, line):
    """Lists the faults of the netlist and the libraries, where the program stops at one of them."""
    faults = InputFaults(program, asked, calculation(program, asked, program.file(asked.spef))).all(line)
    own = next(fault for fault in faults if fault.words == line)
    for path in dict.fromkeys([asked.netlist, *asked.libraries.values()]):
        places = files.Places(program.read(path))
        for fault in sorted((fault for fault in faults if fault.path == path), key=lambda fault: fault.offset):
            listing.fault(path, places, fault.offset, fault.words, fault.detail, fault is own)


def write_mended(program, asked, lint, err):
    """Writes the mended file and what was changed, and tries it."""
    if any(fault.words[:3] in (b"E04", b"E05") for fault in lint.file.faults):
        err.write(b"gdc-lint: %s is not written, since the file cannot be read whole\n" % os.fsencode(asked.mend))
        return
    text = lint.mender.text()
    files.write_whole(asked.mend, text)
    err.write(b"".join(line + b"\n" for line in lint.mender.log))
    _, line = program.run(*calculation(program, asked, asked.mend))
    ending = b"the program still says " + line if line else b"the program takes it"
    err.write(b"%s: written; %s\n" % (os.fsencode(asked.mend), ending))


def run(asked, out, err):
    with tempfile.TemporaryDirectory() as folder:
        program = Program(program_path(asked.program), folder)
        _, line = program.run(*calculation(program, asked, program.file(asked.spef)))
        of_spef = line[:3] in OF_SPEF or line.startswith((b"E50 limit net", b"E50 limit file --spef"))
        listing = Listing(out)
        design = None
        if asked.netlist:
            design = flat_design.design_of(program, asked.netlist, asked.top, next(iter(asked.libraries.values())))
        if line and not of_spef:
            list_inputs(program, asked, listing, line)
        if asked.port_loads and design is None:
            raise CannotMend("without a design no port is known")
        lint = SpefLint(program.read(asked.spef), asked, design)
        lint.list(listing, line if of_spef else b"")
        listing.summary()
        if lint.mender:
            write_mended(program, asked, lint, err)
    return 1 if listing.counts else 0


def main(words, out=None, err=None):
    out, err = out or sys.stdout.buffer, err or sys.stderr.buffer
    asked = read_words(words)
    try:
        return run(asked, out, err)
    except (OSError, EOFError, zlib.error, CannotRun, CannotMend) as fault:
        err.write(f"gdc-lint: {fault}\n".encode(errors="surrogateescape"))
        return 2
