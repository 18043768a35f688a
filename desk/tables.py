"""The faults of a cell of a Liberty library, in the order in which the program looks for them, and the ends of its tables."""
import re
from typing import NamedTuple

from files import shown
from libraries import BUILT_IN, VARIABLES, pins_of
from quantities import MOST_FARADS, MOST_TIME, grains, read_number, times

DIRECTIONS = (b"input", b"output", b"inout", b"internal")
COMBINATIONAL = (b"combinational", b"combinational_rise", b"combinational_fall")
DELAY_TYPES = (*COMBINATIONAL, b"rising_edge", b"falling_edge", b"preset", b"clear")
EDGES = {"rise": (b"cell_rise", b"rise_transition"), "fall": (b"cell_fall", b"fall_transition")}
AXES = {b"input_net_transition": "slew", b"total_output_net_capacitance": "load"}


class Fault(NamedTuple):
    """A fault by its name in the line, and where it stands: a group or an attribute, and in words."""

    name: str
    at: object
    where: str


def unit_fault(library):
    """The fault of a unit of a library, or None."""
    root = library.root
    if library.time is None:
        return Fault("bad unit", root.attribute(b"time_unit"), "the unit of times")
    named = root.attribute(b"capacitive_load_unit")
    where = "the unit of loads" if named else "the library names no capacitive_load_unit"
    return Fault("bad unit", named or root, where) if library.load is None else None


def is_delay_group(group):
    kind = group.value(b"timing_type")
    return (kind is None or kind in DELAY_TYPES) and bool(group.group(b"cell_rise") or group.group(b"cell_fall"))


def capacitance_faults(library, pin, name):
    """The faults of the capacitance of an input pin: its own, those of its edges, or that of all pins."""
    found = [pin.attribute(b"capacitance")]
    if found[0] is None:
        found = [pin.attribute(b"rise_capacitance"), pin.attribute(b"fall_capacitance")]
    if not any(found):
        found = [library.root.attribute(b"default_input_pin_cap")]
    for attribute in filter(None, found):
        value = read_number((attribute.values() or [b""])[0])
        if value is None or not 0 <= grains(value, library.load) <= MOST_FARADS:
            yield Fault("bad number", attribute, f"pin {name}")


def template_of(library, table):
    """The template of a table, "scalar", or None."""
    name = table.args[0] if table.arg_tokens else None
    return "scalar" if name == BUILT_IN else library.templates.get(name)


def variables_of(template):
    """The variables of a template in order, or None where they are no slew and load."""
    if template == "scalar":
        return []
    named = [template.value(key) for key in VARIABLES]
    count = sum(one is not None for one in named)
    found = [AXES.get(one) for one in named[:count]]
    return None if None in named[:count] or None in found or count > 2 or len(set(found)) < count else found


def numbers_in(attribute):
    """The pieces of a list of numbers."""
    return [piece for value in attribute.values() for piece in re.split(rb"[,\t-\r ]+", value) if piece] if attribute else []


def axis_fault(attribute, table, unit, where):
    """The fault of an axis by its index, which its template or the table has."""
    at = attribute or table
    values = [read_number(piece) for piece in numbers_in(attribute)]
    if None in values:
        return Fault("bad number", at, where)
    points = [grains(value, unit) for value in values]
    rising = all(one < other for one, other in zip(points, points[1:]))
    if not points or len(points) > 256 or points[0] < 0 or points[-1] > MOST_TIME or not rising:
        return Fault("bad axis", at, where)
    return None


def axes_of(template, table):
    """The variables of a table with the index of each: its own, or that of its template."""
    for place, variable in enumerate(variables_of(template)):
        key = b"index_%d" % (place + 1)
        yield variable, table.attribute(key) or template.attribute(key)


def table_faults(library, table, where):
    template = template_of(library, table)
    if template is None:
        yield Fault("unknown template", table, where)
        return
    if variables_of(template) is None:
        yield Fault("unknown variable", template, f"{where}, by its template")
        return
    size = 1
    for variable, index in axes_of(template, table):
        size *= len(numbers_in(index))
        fault = axis_fault(index, table, library.time if variable == "slew" else library.load, where)
        if fault:
            yield fault
    listed = table.attribute(b"values")
    values = [read_number(piece) for piece in numbers_in(listed)]
    if None in values or any(abs(grains(value, library.time)) > MOST_TIME for value in values):
        yield Fault("bad number", listed, where)
    elif len(values) != size:
        yield Fault("bad table", listed or table, f"{where}: {len(values)} values, and its axes ask for {size}")
    elif b"transition" in table.name and any(grains(value, library.time) < 0 for value in values):
        yield Fault("negative transition", listed, where)


def timing_faults(library, pins, group, where):
    for name in (group.value(b"related_pin") or b"").split():
        if name not in pins:
            yield Fault("unknown related pin", group.attribute(b"related_pin"), f"{where}, related pin {shown(name)}")
    for delay, transition in EDGES.values():
        first, second = group.group(delay), group.group(transition)
        if first:
            yield from table_faults(library, first, f"{where}, {shown(delay)}")
            if second is None:
                yield Fault("no transition", first, f"{where}: {shown(delay)} without {shown(transition)}")
            else:
                yield from table_faults(library, second, f"{where}, {shown(transition)}")


def faults_of(library, cell):
    """The faults of a cell, in the order in which the program asks for them."""
    fault = unit_fault(library)
    if fault:
        yield fault
        return
    pins = pins_of(cell)
    for name, pin in pins.items():
        if pin.value(b"direction") not in DIRECTIONS:
            yield Fault("bad direction", pin.attribute(b"direction") or pin, f"pin {shown(name)}")
        elif pin.value(b"direction") == b"input":
            yield from capacitance_faults(library, pin, shown(name))
    for name, group in delay_groups(pins):
        where = f"pin {shown(name)}, timing from {shown(group.value(b'related_pin') or b'no pin')}"
        yield from timing_faults(library, pins, group, where)


def delay_groups(pins):
    """The delay groups of the output pins, each with the pin's name."""
    for name, pin in pins.items():
        if pin.value(b"direction") == b"output":
            yield from ((name, group) for group in pin.groups(b"timing") if is_delay_group(group))


def shape_of(cell):
    """The entries of the shape of a cell: in words, and the group of each."""
    pins = pins_of(cell)
    for name, pin in pins.items():
        yield f"pin {shown(name)} {shown(pin.value(b'direction') or b'')}", pin
    for name, group in delay_groups(pins):
        for related in (group.value(b"related_pin") or b"").split():
            if related in pins and pins[related].value(b"direction") == b"input":
                yield f"arc {shown(related)} {shown(name)} {kind_of(group)} {edges_of(group)}", group


def kind_of(group):
    kind, sense = group.value(b"timing_type"), group.value(b"timing_sense")
    if kind in (b"rising_edge", b"falling_edge"):
        return shown(kind)
    return shown(sense) if sense in (b"positive_unate", b"negative_unate") else "both"


def edges_of(group):
    return "/".join(edge for edge, (delay, _) in EDGES.items() if group.group(delay))


def tables_of_arc(cell, start, end, edge, part):
    """The tables of the arcs between two pins: of each delay group that has one."""
    key = EDGES[edge][part == "transition"]
    for name, group in delay_groups(pins_of(cell)):
        if name == end and start in (group.value(b"related_pin") or b"").split() and group.group(EDGES[edge][0]):
            table = group.group(key)
            if table:
                yield table


def ends_of(library, table, axis):
    """The exact ends of an axis of a table in grains, with the index, or None where it has one point or none."""
    template = template_of(library, table)
    for variable, index in axes_of(template, table):
        points = [read_number(piece) for piece in numbers_in(index)]
        if variable == axis and len(points) > 1:
            unit = library.time if axis == "slew" else library.load
            return times(points[0], unit).fraction(), times(points[-1], unit).fraction(), index
    return None
