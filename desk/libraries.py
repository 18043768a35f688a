"""The groups of a Liberty library, each with its places, and what they say to gdc, by docs/FORMATS.md.

The braces of the whole file are found first, and a group is read token by token only where it is asked for: so a place in a long
library is found at once. Where a library is joined to others, all its groups are read, and the first fault of its grammar is told.
"""
import re

from files import Fault
from quantities import FARADS, time_unit, unit_of
from texts import LIBERTY, LIBERTY_TEXT, Token, either

TABLES = {b"cell_rise", b"cell_fall", b"rise_transition", b"fall_transition", b"rise_constraint", b"fall_constraint"}
# The groups that gdc reads, those of buses, which it will, and the tables of checks, whose units are those of delays.
GROUPS = TABLES | {b"library", b"lu_table_template", b"cell", b"pin", b"bus", b"bundle", b"timing"}
VARIABLES = (b"variable_1", b"variable_2", b"variable_3")
CAPACITANCES = {b"capacitance", b"rise_capacitance", b"fall_capacitance"}
ATTRIBUTES = CAPACITANCES.union(
    VARIABLES,
    (b"time_unit", b"capacitive_load_unit", b"default_input_pin_cap", b"index_1", b"index_2", b"values"),
    (b"direction", b"related_pin", b"timing_type", b"timing_sense"),
)
BUILT_IN = b"scalar"
DEEPEST = 16

BRACES = re.compile(either(rb"[{}]", LIBERTY_TEXT, LIBERTY.skip))
DROPPED = re.compile(rb'\\(?:[\t\r ]*\n|(?="))')
LINE_ENDS = re.compile(either(LIBERTY.skip, rb"\n"))


def meaning(data, token):
    """What a word or a text says."""
    if token.kind == "word":
        return data[token.start : token.end]
    inner = data[token.start + 1 : token.end - 1]
    return DROPPED.sub(b"", inner) if b"\\" in inner else inner


class Attribute:
    """An attribute with its values as tokens. A simple one has one value, which may be of several tokens."""

    def __init__(self, data, simple, tokens, start, end):
        self.data, self.simple, self.tokens, self.start, self.end = data, simple, tokens, start, end

    def values(self):
        found = [meaning(self.data, token) for token in self.tokens]
        return [b" ".join(found)] if self.simple else found


class Group:
    """A group: its name, its arguments as tokens, and its places.

    `before` is where the token in front of it ends, `end` where its head does, and `opened` and `closed` are the ends of its body.
    """

    def __init__(self, library, name, arg_tokens, before, start):
        self.library, self.name, self.arg_tokens, self.before, self.start = library, name, arg_tokens, before, start
        self.end = self.opened = self.closed = 0
        self.read = None

    def body(self):
        """The attributes by their names, of which the last of a name counts, and the groups."""
        if self.read is None:
            reader = Reader(self.library, self.opened)
            self.read = reader.body(DEEPEST)
        return self.read

    @property
    def args(self):
        return [meaning(self.library.data, token) for token in self.arg_tokens]

    @property
    def attributes(self):
        return self.body()[0]

    def every_group(self):
        return self.body()[1]

    def groups(self, name):
        return [group for group in self.every_group() if group.name == name]

    def group(self, name):
        """The first group of a name, or None."""
        return next(iter(self.groups(name)), None)

    def attribute(self, name):
        return self.attributes.get(name)

    def values(self, name):
        """The values of an attribute, or None."""
        attribute = self.attributes.get(name)
        return None if attribute is None else attribute.values()

    def value(self, name):
        """The one value of an attribute, or None."""
        values = self.values(name)
        return None if values is None else (values or [b""])[0]


class Reader:
    """Reads a library from a place on, a token after another."""

    def __init__(self, library, place):
        self.library, self.data, self.next = library, library.data, place
        self.token = None
        self.step()

    def step(self):
        """The token here, behind which the reader then is."""
        token, self.passed = self.token, self.next
        found = LIBERTY.one.match(self.data, self.next)
        kind = found.lastgroup
        self.token = Token(0, found.start(kind), found.end(), kind) if kind else None
        self.next = found.end()
        self.kind, self.byte = kind, self.data[self.token.start : self.token.start + 1] if kind == "mark" else b""
        return token

    def jump(self, place):
        self.next = place
        self.step()

    def fault(self, wanted):
        """The fault at this token, where something else is wanted."""
        if self.token is None:
            return self.library.fault(len(self.data), f"the file ends here, where {wanted} is wanted")
        if self.kind == "broken":
            first = self.data[self.token.start : self.token.start + 1]
            opened = {b'"': "this text does not end", b"/": "this comment does not end"}
            return self.library.fault(self.token.start, opened.get(first, "this byte begins no token"))
        return self.library.fault(self.token.start, f"{wanted} is wanted here")

    def take(self, mark):
        if self.byte != mark:
            raise self.fault(f"`{mark.decode()}`")
        return self.step()

    def is_piece(self):
        return self.kind == "word" or self.kind == "text"

    def is_fresh(self):
        """A line end that is no part of a continuation stands before this token."""
        passed = self.data[self.passed : self.token.start]
        return b"\n" in passed and any(b"\n" in gap and gap[:1] != b"\\" for gap in LINE_ENDS.findall(passed))

    def args(self):
        """What stands between parentheses, and the end of it."""
        self.take(b"(")
        found = []
        while self.is_piece() or self.byte == b",":
            if self.is_piece():
                found.append(self.token)
            self.step()
        return found, self.take(b")").end

    def value(self):
        if not self.is_piece():
            raise self.fault("a value")
        found = [self.step()]
        while self.is_piece() and not self.is_fresh():
            found.append(self.step())
        return found

    def statement(self, attributes, groups, depth):
        before, word = self.passed, self.step()
        name = self.data[word.start : word.end]
        if name == b"include_file":
            raise self.library.fault(word.start, "`include_file` is not read: put the file's text in its place")
        simple = self.byte == b":"
        if simple:
            self.step()
            tokens = self.value()
            end = tokens[-1].end
        else:
            tokens, end = self.args()
        if not simple and self.byte == b"{":
            group = Group(self.library, name, tokens, before, word.start)
            group.end = end
            self.group(group, depth)
            if name in GROUPS:
                groups.append(group)
        elif name in ATTRIBUTES:
            attributes[name] = Attribute(self.data, simple, tokens, word.start, end)

    def group(self, group, depth):
        """The body of a group, which is read, or passed over where it may be read later."""
        if depth == DEEPEST and self.library.is_whole:
            raise self.library.fault(self.token.start, "a group stands inside sixteen others")
        group.opened = self.token.end
        if self.library.is_whole:
            self.step()
            read = self.body(depth + 1)
            group.read = read if group.name in GROUPS else None
            group.closed = self.passed - 1
        else:
            group.closed = self.library.close_of[self.token.start]
            self.jump(group.closed + 1)

    def body(self, depth):
        attributes, groups = {}, []
        while self.byte != b"}":
            if self.kind == "word":
                self.statement(attributes, groups, depth)
            elif self.byte == b";":
                self.step()
            else:
                raise self.fault("a statement or `}`")
        # Behind the brace the reader has passed just that.
        self.step()
        return attributes, groups

    def root(self):
        if self.kind != "word" or self.data[self.token.start : self.token.end] != b"library":
            raise self.fault("the word `library`")
        start = self.step().start
        tokens, end = self.args()
        root = Group(self.library, b"library", tokens, 0, start)
        root.end = end
        if self.byte != b"{":
            raise self.fault("`{`")
        self.group(root, 0)
        while self.byte == b";":
            self.step()
        if self.token is not None:
            raise self.fault("the end of the file")
        return root


class Library:
    """A library, its units, or None where they are no good, and its cells and templates."""

    def __init__(self, data, path="", is_whole=False):
        self.path, self.data, self.is_whole = path, data, is_whole
        self.close_of = {} if is_whole else closing_braces(data)
        self.root = Reader(self, 0).root()
        time = self.root.value(b"time_unit")
        self.time = time_unit(b"1ns" if time is None else time)
        self.load = unit_of(self.root.values(b"capacitive_load_unit"), FARADS)
        # A cell without a name is none that an instance could name.
        self.cells = [(cell.args[0], cell) for cell in self.root.groups(b"cell") if cell.arg_tokens]
        self.templates = {}
        for template in self.root.groups(b"lu_table_template"):
            if template.arg_tokens and template.args[0] != BUILT_IN:
                self.templates.setdefault(template.args[0], template)

    def fault(self, offset, text):
        return Fault(self.path, self.data, offset, text)

    def cell(self, name):
        return next((cell for named, cell in self.cells if named == name), None)


def closing_braces(data):
    """Where the brace stands that closes each one."""
    close_of, opened = {}, []
    for found in BRACES.finditer(data):
        if found[0] == b"{":
            opened.append(found.start())
        elif found[0] == b"}" and opened:
            close_of[opened.pop()] = found.start()
    return close_of


def pins_of(cell):
    """The pins of a cell with their groups, in order. Of several groups of a name the first counts."""
    pins = {}
    for group in cell.groups(b"pin"):
        for name in group.args:
            pins.setdefault(name, group)
    return pins
