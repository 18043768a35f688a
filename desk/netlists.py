"""The modules of a structural netlist, their instances and names, and where these stand.

Only the statements that a question is about are read token by token, since netlists are long. What is read is read strictly: where
the grammar of docs/FORMATS.md goes on with another token there is a Fault.
"""
import bisect
import re
from typing import NamedTuple, Optional

from files import Fault
from texts import VERILOG, text_of, tokens_from

NAME = rb"(?:[A-Za-z_][A-Za-z0-9_$]*|\\[!-~]+(?!\S))"

# A statement up to its `;`. One escaped name, comment or attribute is taken at a time, since a `;` may stand in it.
STATEMENT = re.compile(
    VERILOG.gap + rb"(?:(?P<last>endmodule)(?![A-Za-z0-9_$])|(?P<first>" + NAME + rb")"
    rb"[^;\\/(`]*(?:(?:\\[!-~]+|" + VERILOG.skip + rb"|\((?!\*))[^;\\/(`]*)*;)"
)
DIRECTIONS = (b"input", b"output")
DECLARES = (b"module", b"input", b"output", b"wire")


class Statement(NamedTuple):
    first: bytes
    start: int
    end: int


class Declared(NamedTuple):
    """A name that a header, a direction or `wire` declares. A direction in a header is both of the first two."""

    name: bytes
    token: tuple
    by: tuple
    range: Optional[tuple]


class Part(NamedTuple):
    """A name of an expression, with the bits that it selects, or None for all."""

    name: bytes
    token: tuple
    select: Optional[tuple]


class Connection(NamedTuple):
    port: bytes
    token: tuple
    parts: list
    constants: list


class Instance(NamedTuple):
    cell: bytes
    name: bytes
    token: tuple
    connections: list


def bare(text):
    """A name without the backslash of an escaped one."""
    return text[1:] if text.startswith(b"\\") else text


def mention_of(name):
    """The pattern of a name, escaped or not. One that stands in a longer escaped name is mostly passed over."""
    escaped = rb"\\" + re.escape(name) + rb"(?!\S)"
    if not re.fullmatch(rb"[A-Za-z_][A-Za-z0-9_$]*", name):
        return re.compile(escaped)
    return re.compile(escaped + rb"|(?<![A-Za-z0-9_$\\])" + name.replace(b"$", rb"\$") + rb"(?![A-Za-z0-9_$])")


class Reader:
    """The tokens of a statement, one after the other. What the grammar has nowhere is a Fault."""

    def __init__(self, netlist, statement):
        self.netlist, self.data = netlist, netlist.data
        self.tokens, self.end, self.at = list(netlist.tokens(statement)), statement.end, 0
        if self.tokens[-1].kind == "broken":
            self.end = self.tokens.pop().start
        self.words = [text_of(self.data, token) for token in self.tokens]

    def word(self):
        return self.words[self.at] if self.at < len(self.words) else b""

    def take(self):
        self.at += 1
        return self.words[self.at - 1], self.tokens[self.at - 1]

    def skip(self, *words):
        if self.word() in words:
            self.at += 1
            return True
        return False

    def fault(self, wanted):
        offset = self.tokens[self.at].start if self.at < len(self.tokens) else self.end
        return self.netlist.fault(offset, wanted)

    def take_mark(self, mark):
        if not self.skip(mark):
            raise self.fault(f"`{mark.decode()}`")

    def name(self):
        if self.at == len(self.tokens) or self.tokens[self.at].kind != "name":
            raise self.fault("a name")
        word, token = self.take()
        return bare(word), token

    def bounds(self):
        """`[ 3 : 0 ]` or `[ 3 ]`, if it stands here."""
        if not self.skip(b"["):
            return None
        left = right = int(self.take()[0])
        if self.skip(b":"):
            right = int(self.take()[0])
        self.skip(b"]")
        return left, right

    def declared(self):
        """The names that a statement declares, in order."""
        in_header = self.skip(b"module")
        if in_header:
            self.take()
        by, bounds = (b"header",) if in_header else (), None
        while self.at < len(self.tokens):
            word, token = self.take()
            if word in DIRECTIONS or word == b"wire":
                kind = (b"wire",) if word == b"wire" else (b"direction",)
                # `output wire` is a direction alone.
                if word != b"wire" or b"direction" not in by:
                    by, bounds = ((b"header",) if in_header else ()) + kind, None
            elif word == b"[":
                self.at -= 1
                bounds = self.bounds()
            elif token.kind == "name":
                yield Declared(bare(word), token, by, bounds)

    def connection(self):
        self.take_mark(b".")
        port, token = self.name()
        self.take_mark(b"(")
        parts, constants = [], []
        while self.word() not in (b")", b""):
            word, inner = self.take()
            if inner.kind == "name":
                parts.append(Part(bare(word), inner, self.bounds()))
            elif inner.kind in ("constant", "number"):
                constants.append(inner)
        self.take_mark(b")")
        return Connection(port, token, parts, constants)

    def instances(self):
        """The instances of a statement that is no declaration."""
        cell, _ = self.name()
        while True:
            name, token = self.name()
            connections = []
            self.take_mark(b"(")
            if self.word() != b")":
                connections.append(self.connection())
                while self.skip(b","):
                    connections.append(self.connection())
            self.take_mark(b")")
            yield Instance(cell, name, token, connections)
            if not self.skip(b","):
                return self.take_mark(b";")


class Module:
    """A module with its statements, of which the header is the first. Several may have one name."""

    def __init__(self, netlist, header):
        self.netlist, self.data = netlist, netlist.data
        self.statements, self.starts = [header], [header.start]
        reader = Reader(netlist, header)
        reader.take_mark(b"module")
        self.name, self.token = reader.name()

    def add(self, statement):
        self.statements.append(statement)
        self.starts.append(statement.start)

    def mentioning(self, name):
        """The statements in which a name stands, in order, and maybe some in which it is part of another."""
        last = None
        for found in mention_of(name).finditer(self.data, self.statements[0].start, self.statements[-1].end):
            statement = self.statements[bisect.bisect_right(self.starts, found.start()) - 1]
            if statement is not last:
                yield statement
            last = statement

    def declared_in(self, statements):
        for statement in statements:
            if statement.first in DECLARES:
                yield from Reader(self.netlist, statement).declared()

    def instances_in(self, statements):
        for statement in statements:
            if statement.first not in DECLARES:
                yield from Reader(self.netlist, statement).instances()

    def declarations(self, name):
        return [declared for declared in self.declared_in(self.mentioning(name)) if declared.name == name]

    def ports(self):
        return list(self.declared_in(self.statements[:1]))

    def instances(self, name):
        """The instances of this name. A netlist that the program takes has one at most."""
        return [instance for instance in self.instances_with(name) if instance.name == name]

    def instances_with(self, name):
        """The instances in whose statement this name stands."""
        return self.instances_in(self.mentioning(name))

    def names(self, statements):
        """The names that must differ: each with its token, and among which."""
        statements = list(statements)
        yield self.name, self.token, "modules"
        for declared in self.declared_in(statements):
            yield from ((declared.name, declared.token, (self.token.start, by)) for by in declared.by)
        for instance in self.instances_in(statements):
            yield instance.name, instance.token, (self.token.start, "instances")
            yield from ((port.port, port.token, (self.token.start, "ports", instance.token.start)) for port in instance.connections)

    @staticmethod
    def half_declared(declared):
        """Of these the names of the header without a direction, and the other way round: the first of each, and what it lacks."""
        for has, lacks in ((b"header", b"direction"), (b"direction", b"header")):
            whole = {one.name for one in declared if lacks in one.by}
            halves = [one for one in declared if has in one.by and one.name not in whole]
            yield from ((one, lacks) for one in {one.name: one for one in reversed(halves)}.values())

    def first_of(self, cell):
        """The first instance of a cell, or None."""
        for statement in self.statements:
            if bare(statement.first) == cell and statement.first not in DECLARES:
                return next(self.instances_in([statement]))
        return None


class Netlist:
    def __init__(self, data, path=""):
        self.data, self.path = data, path
        self.every = []
        is_inside, place = False, 0
        found = STATEMENT.match(data, place)
        while found:
            first, place = found["first"], found.end()
            start = found.start("first" if first else "last")
            if (first == b"module") == is_inside:
                raise self.fault(start, "a statement" if is_inside else "`module`")
            if first == b"module":
                self.every.append(Module(self, Statement(first, start, place)))
            elif first:
                self.every[-1].add(Statement(first, start, place))
            is_inside = first is not None
            found = STATEMENT.match(data, place)
        self.ask_end(place, is_inside)
        self.modules = {module.name: module for module in reversed(self.every)}

    def ask_end(self, place, is_inside):
        token = next(tokens_from(VERILOG, self.data, place, 1), None)
        if token or is_inside:
            raise self.fault(token.start if token else len(self.data), "a statement up to its `;`" if is_inside else "`module`")

    def fault(self, offset, wanted):
        return Fault(self.path, self.data, offset, f"{wanted} is wanted here: gdc reads structural Verilog")

    def tokens(self, statement):
        for token in tokens_from(VERILOG, self.data, statement.start, 1):
            if token.start >= statement.end:
                return
            yield token

    def below(self, top):
        """The modules of a design in the order in which a walk comes to them."""
        order, waiting = [], [top]
        while waiting:
            module = self.modules.get(waiting.pop())
            if module and module not in order:
                order.append(module)
                waiting += [bare(statement.first) for statement in reversed(module.statements[1:])]
        return order

    def cells(self, top):
        """Where the first instance of each cell below a module stands."""
        cells = {}
        for module in self.below(top):
            for statement in module.statements:
                if statement.first not in DECLARES and bare(statement.first) not in self.modules:
                    cells.setdefault(bare(statement.first), statement.start)
        return cells

    def uncalled(self):
        """The modules of which no module has an instance."""
        called = {bare(statement.first) for module in self.every for statement in module.statements[1:]}
        return [module for module in self.every if module.name not in called]

    def scopes(self, top, path):
        """Each module that a front of the path leads to, with the rest of the path. The top has the whole."""
        module = self.modules.get(top)
        if module is None:
            return
        yield module, path
        for place in [place for place, byte in enumerate(path) if byte == ord("/")]:
            for instance in module.instances(path[:place]):
                if instance.cell in self.modules:
                    yield from self.scopes(instance.cell, path[place + 1 :])

    def instances_at(self, top, path):
        """The modules and instances that a path names."""
        return [(module, instance) for module, rest in self.scopes(top, path) for instance in module.instances(rest)]

    def nets_at(self, top, path):
        """The modules and tokens that declare a net or, where nothing does, first use it."""
        found = []
        for module, rest in self.scopes(top, path):
            bit = re.fullmatch(rb"(.+)\[([0-9]+)\]", rest, re.DOTALL)
            whole = [one for one in module.declarations(rest) if one.range is None]
            bits = [one for one in module.declarations(bit[1]) if is_within(int(bit[2]), one.range)] if bit else []
            # A header comes first and says less than what stands behind it.
            declared = [(module, kind[-1].token) for kind in (whole, bits) if kind]
            found += declared or [(module, part.token) for _, _, part in uses_of(module, rest, None)][:1]
        return found


def is_within(bit, bounds):
    return bounds is not None and min(bounds) <= bit <= max(bounds)


def uses_of(module, name, bit):
    """The instances and connections that use a name, or this bit of it."""
    for instance in module.instances_with(name):
        for connection in instance.connections:
            for part in connection.parts:
                if part.name == name and (bit is None or part.select is None or is_within(bit, part.select)):
                    yield instance, connection, part


def used_cells(files):
    """The cells of some netlists, given by their paths and bytes, with the ports that are connected, in the order of their first use."""
    used, modules = {}, set()
    for path, data in files:
        for module in Netlist(data, path).every:
            modules.add(module.name)
            for instance in module.instances_in(module.statements):
                used.setdefault(instance.cell, {}).update((connection.port, None) for connection in instance.connections)
    # A netlist may be in several files, so that a module of one is instanced in another.
    return {name: ports for name, ports in used.items() if name not in modules}
