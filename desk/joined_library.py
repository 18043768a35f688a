"""One text of several libraries: which cells and templates stand in it, and what is said about it."""
import fnmatch
import os
import re

from files import shown
from liberty_edits import Edits, spelled, template_meaning
from libraries import BUILT_IN, pins_of

WILD = re.compile(r"[*?\[]")


def patched(data, start, end, edits):
    """The pieces of a part of a text in which the edits are made."""
    at = start
    for begin, behind, text in sorted(edits):
        yield data[at:begin]
        yield text
        at = behind
    yield data[at:end]


def input_pins(names):
    """A group of input pins without capacitance."""
    return b"pin (%b) { direction : input; capacitance : 0; }" % b", ".join(spelled(name) for name in names)


def counted(count, one, many):
    return f"{count} {one if count == 1 else many}"


def label(libraries):
    """Names each library as messages have it: by its own name, or by its file where that is not one."""
    names = [b"".join(library.root.args[:1]) for library in libraries]
    for library, name in zip(libraries, names):
        library.label = shown(name) if name and names.count(name) == 1 else library.path


class JoinedLibrary:
    """The libraries in their order, the first of which gives the units; `used` has the ports of each cell to keep, or is None."""

    def __init__(self, libraries, used=None, stubs=(), power=()):
        self.libraries, self.used, self.power, self.said = libraries, used, power, []
        label(libraries)
        self.edits = [Edits(library, libraries[0]) for library in libraries]
        self.powered = self.renamed = self.wins = 0
        # The names of all templates, and of each what it means and how it is named in the joined text.
        self.taken, self.twins = {BUILT_IN}.union(*(library.templates for library in libraries)), {}
        # What a table of one library names and lacks, another may have, and not mean.
        lacking = self.unused_name(b"no_template") if len(libraries) > 1 else None
        self.templates = [list(self.name_templates(edits, lacking)) for edits in self.edits]
        self.owners = {}
        self.cells = [list(self.choose(library)) for library in libraries]
        self.stubs = self.choose_stubs(stubs)

    def unused_name(self, name):
        """A name that no template has."""
        base, number = re.sub(rb"[^A-Za-z0-9_]", b"_", name), 2
        while b"%b_%d" % (base, number) in self.taken:
            number += 1
        self.taken.add(b"%b_%d" % (base, number))
        return b"%b_%d" % (base, number)

    def name_templates(self, edits, lacking):
        """Gives the templates of a library their names in the joined text, and answers those that are new in it."""
        edits.lacking = lacking
        for name, template in edits.library.templates.items():
            said, twins = template_meaning(edits.library, template), self.twins.setdefault(name, [])
            joined = next((joined for meant, joined in twins if meant == said), None)
            if joined is None:
                joined = self.unused_name(name) if twins else name
                twins.append((said, joined))
                yield name, template
            if joined != name:
                edits.renamed[name] = joined
                self.renamed += 1
                self.said.append(f"template {shown(name)} of {edits.library.label} is {shown(joined)} here, since another library has another one")

    def choose(self, library):
        """The cells of a library that stand in the joined text: those that are wanted, and of one name the first."""
        for name, cell in library.cells:
            owner = self.owners.get(name)
            if self.used is not None and name not in self.used:
                continue
            if owner is None:
                self.owners[name] = library
                yield cell
            else:
                self.wins += 1
                self.said.append(f"{owner.label}:{shown(name)} wins over {library.label}:{shown(name)}")

    def choose_stubs(self, patterns):
        """The names of the cells that are made, with their pins; it is said what no library and no pattern has."""
        found = {}
        for name, ports in (self.used or {}).items():
            if name not in self.owners:
                if any(fnmatch.fnmatchcase(shown(name), pattern) for pattern in patterns):
                    found[name] = ports
                else:
                    self.said.append(f"no library has the cell {shown(name)}")
        stand = self.owners.keys() | {name for library in self.libraries for name, _ in library.cells}
        for pattern in patterns:
            name = os.fsencode(pattern)
            if not WILD.search(pattern) and name not in stand:
                found.setdefault(name, ())
        self.said += [f"stub {shown(name)} ({', '.join(map(shown, ports))})" for name, ports in found.items()]
        return found

    def power_edits(self, cell):
        """Puts power pins before the pins of a cell, where it has none of their names that a net can join."""
        pins = pins_of(cell)
        missing = [name for name in self.power if name not in pins or pins[name].value(b"direction") not in (b"input", b"output")]
        if missing:
            self.powered += 1
            yield cell.opened, cell.opened, b" " + input_pins(missing)

    def edits_of(self, edits, cell):
        yield from edits.cell_edits(cell)
        if self.power:
            yield from self.power_edits(cell)

    def stub_texts(self):
        for name, ports in self.stubs.items():
            missing = [power for power in self.power if power not in ports]
            self.powered += bool(missing)
            pins = [*ports, *missing]
            yield b"  cell (%b) { %b }\n" % (spelled(name), input_pins(pins) if pins else b"")

    def later_texts(self):
        """The templates and the cells of all libraries behind the first."""
        for edits, templates, cells in zip(self.edits[1:], self.templates[1:], self.cells[1:]):
            data = edits.data
            for name, template in templates:
                yield from patched(data, template.start, template.closed + 1, edits.template_edits(template, name))
                yield b"\n"
            for cell in cells:
                yield from patched(data, cell.start, cell.closed + 1, self.edits_of(edits, cell))
                yield b"\n"

    def first_edits(self):
        edits, kept = self.edits[0], set(self.cells[0])
        for _, cell in edits.library.cells:
            if cell in kept:
                yield from self.edits_of(edits, cell)
            else:
                # What is read over in front of it, as a comment about it, goes with it.
                yield cell.before, cell.closed + 1, b"\n"
        added = b"".join((*self.later_texts(), *self.stub_texts()))
        if added:
            yield self.libraries[0].root.closed, self.libraries[0].root.closed, b"\n" + added

    def text(self):
        first = self.libraries[0]
        return b"".join(patched(first.data, 0, len(first.data), self.first_edits()))

    def summary(self):
        """What is said of the text once it is made."""
        for edits in self.edits:
            if edits.moved:
                self.said.append(f"the times and loads of {edits.library.label} are in the units of {self.libraries[0].label}")
            if edits.defaults:
                pins = counted(edits.defaults, "pin has", "pins have")
                self.said.append(f"{pins} the default_input_pin_cap of {edits.library.label}")
        cells = counted(sum(len(library.cells) for library in self.libraries), "cell", "cells")
        parts = [f"{cells} of {counted(len(self.libraries), 'library', 'libraries')}"]
        parts.append(f"{sum(map(len, self.cells))} {'kept' if self.used is None else 'used kept'}")
        parts.append(f"{counted(self.renamed, 'template', 'templates')} renamed; {counted(self.wins, 'cell wins', 'cells win')}")
        parts.append(f"{counted(len(self.stubs), 'stub', 'stubs')}; power pins in {counted(self.powered, 'cell', 'cells')}")
        return [*self.said, "; ".join(parts)]
