"""Joins libraries of one corner to one text, which says to gdc of each cell what the cell's own library says.

The text of a library stays as it is but for edits: a place, and what stands there instead.
"""
import re

from files import shown
from libraries import BUILT_IN, CAPACITANCES, TABLES, VARIABLES, Library, meaning
from quantities import Number, TooLong, ratio, read_number, scaled, scaled_list, times

LOAD = b"total_output_net_capacitance"
TIMES = {b"input_net_transition", b"related_pin_transition", b"constrained_pin_transition"}
AXES = ((b"index_1", b"variable_1"), (b"index_2", b"variable_2"))
PLAIN_NAME = re.compile(rb"[A-Za-z_][A-Za-z0-9_]*")


class NoSpelling(Exception):
    """A name of a netlist that no Liberty file can say."""

    status = 1


def spelled(name):
    """A name as Liberty has it."""
    if PLAIN_NAME.fullmatch(name):
        return name
    if name.endswith(b"\\"):
        raise NoSpelling(f"no text of Liberty says the name {shown(name)}")
    return b'"%b"' % name.replace(b'"', b'\\"')


def read_whole(path, data):
    """A library that can be joined to others. Without good units its numbers say nothing."""
    library = Library(data, path, is_whole=True)
    for name, unit in ((b"time_unit", library.time), (b"capacitive_load_unit", library.load)):
        attribute = library.root.attribute(name)
        if unit is None and attribute and attribute.tokens:
            raise library.fault(attribute.tokens[0].start, f"this is no {shown(name)} that gdc reads")
        if unit is None:
            raise library.fault(library.root.start, f"the library has no good {shown(name)}")
    return library


def exact(text, unit):
    """The value that a text says, apart from any unit, or the text where it is no number."""
    number = read_number(text)
    return text if number is None else times(number, unit)


def default_of(library):
    """The capacitance of an input pin that has none of its own."""
    text = library.root.value(b"default_input_pin_cap")
    return Number(0, 0) if text is None else exact(text, library.load)


def axis(library, template, index, variable):
    """The points of an axis of a template, apart from any unit."""
    named = template.value(variable)
    unit = library.load if named == LOAD else library.time if named in TIMES else Number(1, 0)
    return [exact(piece, unit) for text in template.values(index) or [] for piece in re.split(rb"[\t-\r ,]+", text) if piece]


def template_meaning(library, template):
    """What two templates must have in common to be one."""
    named = [template.value(variable) for variable in VARIABLES]
    return named, [axis(library, template, index, variable) for index, variable in AXES]


class Edits:
    """What is to change in the text of one library, that a text in the units of the first means the same."""

    def __init__(self, library, first):
        self.library, self.data = library, library.data
        self.time, self.load = ratio(library.time, first.time), ratio(library.load, first.load)
        if self.load is None:
            raise library.fault(library.root.start, f"no decimal says its loads in the unit of {first.path}: give it first")
        self.moved = (library.time, library.load) != (first.time, first.load)
        self.default = None if default_of(library) == default_of(first) else self.default_text()
        self.defaults = 0
        # The templates that have another name in the joined text, and the name of none.
        self.renamed, self.lacking = {}, None

    def default_text(self):
        """The library's default, as a pin of its own is to have it in the joined text."""
        attribute = self.library.root.attribute(b"default_input_pin_cap")
        if attribute is None or not attribute.tokens:
            return b"0" if attribute is None else b'""'
        tokens = attribute.tokens if attribute.simple else attribute.tokens[:1]
        if len(tokens) == 1:
            return self.number_edit(tokens[0], self.load)[2]
        return self.data[tokens[0].start : tokens[-1].end]

    def scaled_token(self, token, factor, scale):
        text = self.data[token.start : token.end]
        if b"\\" in text:
            said = meaning(self.data, token)
            # What still has one of these is no list of numbers.
            text = text if b"\\" in said or b'"' in said else b'"%b"' % said
        quote = b'"' if token.kind == "text" else b""
        inner = text[1:-1] if quote else text
        try:
            return token.start, token.end, quote + scale(inner, factor) + quote
        except TooLong:
            raise self.library.fault(token.start, "a number has more than 30 digits in the unit of the first library")

    def number_edit(self, token, factor):
        return self.scaled_token(token, factor, scaled)

    def list_edits(self, group, name, factor):
        attribute = group.attribute(name)
        for token in attribute.tokens if attribute else ():
            yield self.scaled_token(token, factor, scaled_list)

    def axes_edits(self, group, template):
        """The axes that stand in a table or a template, by the variables of the template."""
        for index, variable in AXES:
            named = template.value(variable)
            if named == LOAD:
                yield from self.list_edits(group, index, self.load)
            elif named in TIMES:
                yield from self.list_edits(group, index, self.time)

    def template_edits(self, template, name):
        if name in self.renamed:
            yield template.arg_tokens[0].start, template.arg_tokens[0].end, self.renamed[name]
        if self.moved:
            yield from self.axes_edits(template, template)

    def table_edits(self, table):
        name = table.args[0] if table.arg_tokens else None
        template = self.library.templates.get(name)
        if name in self.renamed:
            yield table.arg_tokens[0].start, table.arg_tokens[0].end, self.renamed[name]
        elif template is None and name not in (None, BUILT_IN) and self.lacking:
            yield table.arg_tokens[0].start, table.arg_tokens[0].end, self.lacking
        if self.moved:
            yield from self.list_edits(table, b"values", self.time)
            if template is not None:
                yield from self.axes_edits(table, template)

    def pin_edits(self, pin):
        """The default of its own library for an input pin without a capacitance."""
        if self.default is not None and not CAPACITANCES & pin.attributes.keys():
            if pin.value(b"direction") == b"input":
                self.defaults += len(pin.arg_tokens)
                yield pin.opened, pin.opened, b" capacitance : %b;" % self.default

    def group_edits(self, group):
        """The edits of a group and of those in it."""
        if group.name in TABLES:
            yield from self.table_edits(group)
        elif self.moved:
            for name in CAPACITANCES & group.attributes.keys():
                attribute = group.attributes[name]
                if len(attribute.tokens) == 1 or not attribute.simple:
                    yield from (self.number_edit(token, self.load) for token in attribute.tokens[:1])
        for inner in group.every_group():
            yield from self.group_edits(inner)

    def cell_edits(self, cell):
        if self.moved or self.renamed or self.lacking:
            yield from self.group_edits(cell)
        for pin in cell.groups(b"pin"):
            yield from self.pin_edits(pin)
