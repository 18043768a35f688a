"""Mends of a SPEF file: each is asked for, and each is logged with its place. What is not mended stays byte for byte."""
import decimal
import os
import re

import files
import texts
from node_names import shown
from parasitics import is_literal
from quantities import MOST_DIGITS, MOST_FARADS, ONE, ratio, read_number, read_value, times


class CannotMend(Exception):
    """A mend that was asked for and cannot be made."""


def read_loads(path):
    """The lines `PORT FEMTOFARADS` of a file, each with its number."""
    loads = {}
    for number, line in enumerate(files.read_file(path).split(b"\n"), 1):
        words = line.split()
        if not words:
            continue
        if len(words) != 2 or not is_literal(words[1]) or words[0] in loads:
            raise CannotMend(f"{path}:{number}:1: want a port and a number of femtofarads, and each port once")
        if read_value(words[1], ONE, MOST_FARADS)[1]:
            raise CannotMend(f"{path}:{number}:1: the load is not from 0 to 10^6 fF")
        loads[words[0]] = words[1]
    return loads


def in_unit(femtofarads, unit):
    """A number of femtofarads in the unit of a file, exactly."""
    number = ratio(times(read_number(femtofarads), ONE), unit)
    if number is None or number.digits >= 10**MOST_DIGITS:
        raise CannotMend(f"{femtofarads.decode()} fF has no exact number in the file's unit")
    return f"{decimal.Decimal(f'{number.digits}e{number.exponent}'):f}".encode()


def spelled(name):
    """A name as a word of SPEF in a file of any marks."""
    return re.sub(rb"[^A-Za-z0-9_]|\A[0-9]", lambda found: b"\\" + found.group(), name)


class Mender:
    """Collects the edits of a file, section by section, and makes its mended text."""

    def __init__(self, file, path, asked, design):
        self.file, self.path, self.asked, self.design = file, os.fsencode(path), asked, design
        self.edits, self.log = [], []
        self.loads = read_loads(asked.port_loads) if asked.port_loads else {}
        # the ports of each net, of which those that have their load are taken out
        self.ports = {}
        for port in self.loads:
            net = design.net_of.get((port, None))
            if net is None or (port, None) not in design.nets[net].sinks:
                raise CannotMend(f"{asked.port_loads}: {os.fsdecode(port)} is no output port with a driver")
            self.ports.setdefault(net, []).append(port)

    def say(self, offset, text):
        self.log.append(files.told(self.path, self.file.places.of(offset), text))

    def line_end(self, offset):
        """The beginning of the next line where nothing but a comment stands between, and else the place itself."""
        data = self.file.data
        past = data.find(b"\n", offset) + 1
        behind = data[offset:past].strip()
        return past if past and (not behind or behind.startswith(b"//")) else offset

    def drop(self, elements, first, past, what):
        """Drops an entry, and its whole line where no other stands on it."""
        part, data = elements.part, self.file.data
        start, end = part.span(first, past)
        self.say(start, b"dropped %s of the net %s: %s" % (what, elements.net, b" ".join(part.words[first:past])))
        line_start = data.rfind(b"\n", 0, start) + 1
        if self.line_end(end) > end and not data[line_start:start].strip():
            start, end = line_start, self.line_end(end)
        self.edits.append((start, end, b""))

    def section(self, elements, judgement):
        """The mends of a section. One without a judgement is of a net that the run does not ask for."""
        if judgement is not None:
            gone = set()
            if self.asked.pins == "drop":
                gone = self.drop_pins(elements, judgement)
            if self.asked.loops == "drop":
                for at in judgement.closing:
                    if at not in gone:
                        self.drop(elements, at, at + 4, b"a resistor that closes a loop")
        for number, port in enumerate(self.ports.pop(elements.net, ())):
            self.add_load(elements, port, number)

    def drop_pins(self, elements, judgement):
        """Drops strange pins, and what no resistors join to the net behind them. Answers the places of dropped resistors."""
        strange, piece, gone = set(judgement.strange), judgement.pieces.piece, set()
        if not strange:
            return gone
        for entry, node in elements.conns:
            if node in strange:
                self.drop(elements, entry[0], entry[1], b"the strange pin %s" % shown(node))
        for at, first, _ in elements.resistors:
            if piece(first) in judgement.lost:
                gone.add(at)
                self.drop(elements, at, at + 4, b"a resistor behind a strange pin")
        for (at, second, value), nodes in elements.capacitances:
            if any(piece(node) in judgement.lost for node in nodes) or self.is_foreign_then(elements, strange, second, nodes):
                self.drop(elements, at, value + 1, b"a capacitance at a strange pin")
        return gone

    def is_foreign_then(self, elements, strange, second, nodes):
        """Whether a coupling belongs to the net by strange pins alone."""
        alone = (node in strange and node not in elements.joined and node[0] != elements.net for node in nodes)
        return second is not None and all(alone)

    def add_load(self, elements, port, before):
        """Adds a capacitance at a port's node, behind the others of the section and so many new ones."""
        part, section, words = elements.part, elements.section, elements.part.words
        if self.file.farads is None:
            raise CannotMend("the file has no unit of capacitance, so no load can be added")
        refs = (word for word in words[1:] if self.file.is_ref(word) and self.file.names.node(word) == (port, None))
        node = next(refs, spelled(port))
        number = in_unit(self.loads[port], self.file.farads)
        entry = b"%d %s %s" % (len(section.capacitances) + before + 1, node, number)
        keyword = b"*CAP\n" if section.cap_keyword is None and before == 0 else b""
        end = part.tokens[section.cap_past - 1].end
        offset = self.line_end(end)
        self.edits.append((offset, offset, (b"\n" if offset == end else b"") + keyword + entry + b"\n"))
        self.say(offset, b"added a load of %s fF to the net %s: %s" % (self.loads[port], elements.net, entry))

    def slim(self, section):
        """Leaves out what says nothing in a section: its total, and the loose words of its connections."""
        tokens = section.part.tokens
        self.edits.append((tokens[2].start, tokens[section.total_past - 1].end, b"0"))
        for at in section.loose:
            self.edits.append((tokens[at].start, tokens[at].end, b""))

    def text(self):
        """The mended text. Where it is to be slim no blank stands in it that need not."""
        for net, ports in self.ports.items():
            raise CannotMend(f"the net {os.fsdecode(net)} of the port {os.fsdecode(ports[0])} has no section that can be read")
        data, pieces, at = self.file.data, [], 0
        # Edits of one place stay in the order in which they were made.
        for start, end, new in sorted(self.edits, key=lambda edit: edit[:2]):
            if start >= at:
                pieces += data[at:start], new
            at = max(at, end)
        text = b"".join(pieces) + data[at:]
        return self.slim_text(text) if self.asked.slim else text

    def slim_text(self, text):
        """The tokens of a text alone, with a line end or a blank between them."""
        pieces, at = [], None
        for token in texts.tokens_of(text, "spef"):
            if at is not None:
                pieces.append(b"\n" if text.find(b"\n", at, token.start) >= 0 else b" ")
            pieces.append(text[token.start : token.end])
            at = token.end
        slim = b"".join(pieces) + b"\n"
        sizes = len(self.file.data), len(slim)
        self.log.append(b"%s: left out comments, lines *N, coordinates and totals: %d bytes are %d" % (self.path, *sizes))
        return slim
