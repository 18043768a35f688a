"""Where a refusal's names stand in the libraries of its run: cells, pins, tables and their axes, and the instances that
meet them."""
import difflib
from decimal import Decimal

from commands import Finding, NoPlace
from files import shown
from netlist_places import connection_finding, in_module, instances_of, library_of, net_place, netlist_of, top_of
from tables import ends_of, faults_of, shape_of, tables_of_arc, unit_fault

# Powers of ten: attoseconds of a picosecond, grains of a femtofarad, and 10^-27 s of a picosecond.
UNITS = {"slew": ("ps", 6), "load": ("fF", 6), "elmore": ("ps", 15)}


def in_units(value, kind):
    """Whole grains as a decimal number with its unit."""
    unit, power = UNITS[kind]
    number = format(Decimal(value).scaleb(-power), "f")
    return f"{number.rstrip('0').rstrip('.') if '.' in number else number} {unit}"


def plain(value):
    """An exact value as a decimal number, to a millionth."""
    return f"{float(value):.6f}".rstrip("0").rstrip(".")


def cell_of(command, refusal):
    key, library = command.library_key(refusal.fields["CORNER"]), library_of(command, refusal.fields["CORNER"])
    cell = library.cell(refusal.name("CELL"))
    if cell is None:
        raise NoPlace(f"{command.path(key)} was searched for the cell {refusal.fields['CELL']}, and has none")
    return key, library, cell


def unknown_cell(command, refusal):
    """The first instance of a cell that the library lacks."""
    name = refusal.name("CELL")
    key, library = command.library_key(refusal.fields["CORNER"]), library_of(command, refusal.fields["CORNER"])
    cells = [shown(name) for name, _ in library.cells]
    notes = [f"{command.path(key)} has no cell of this name among its {len(cells)}."]
    alike = difflib.get_close_matches(refusal.fields["CELL"], cells, 3)
    if alike:
        notes.append(f"It has {' '.join(alike)}.")
    if command.name == "lookup":
        return Finding([], notes)
    for module in netlist_of(command).below(top_of(command)):
        instance = module.first_of(name)
        if instance:
            return Finding([command.place("--netlist", instance.token)], [in_module(module, instance)] + notes)
    raise NoPlace(f"the modules below {shown(top_of(command))} were searched for an instance of {refusal.fields['CELL']}")


def cell_fault(command, refusal):
    """The pin, the group or the attribute with a cell's first fault. Where that is another one, the cell alone is shown."""
    key, library, cell = cell_of(command, refusal)
    fault = next(faults_of(library, cell), None)
    if fault is None or fault.name != refusal.fields["FAULT"]:
        note = "The pins, groups and tables of the cell were examined, and this fault was not found first."
        return Finding([command.place(key, cell)], [note])
    note = fault.where[:1].upper() + fault.where[1:] + "."
    return Finding([command.place(key, fault.at), command.place(key, cell, "the cell")], [note])


def corner_shape(command, refusal):
    """The entry of a cell's shape at a corner, and that at the first corner."""
    at = refusal.number("N") - 1
    places, notes = [], []
    for corner in (refusal.fields["CORNER"], "min"):
        key, library = command.library_key(corner), library_of(command, corner)
        cell = library.cell(refusal.name("CELL"))
        entries = list(shape_of(cell))
        name, group = entries[at] if at < len(entries) else ("nothing more", cell)
        places.append(command.place(key, group, f"at {corner}: {name}" if places else ""))
        notes.append(f"At {corner}: {name}.")
    return Finding(places, notes)


def tables_with_ends(command, refusal, cell_name):
    """The tables of the refusal's arc, edge and part that have the axis, with the ends of it."""
    fields = refusal.fields
    library = library_of(command, fields["CORNER"])
    cell = library.cell(cell_name)
    if cell is None or unit_fault(library):
        return []
    tables = tables_of_arc(cell, refusal.name("FROM"), refusal.name("TO"), fields["EDGE"], fields["PART"])
    found = [(table, ends_of(library, table, fields["AXIS"])) for table in tables]
    return [(table, ends) for table, ends in found if ends]


def asked_cell(command, refusal):
    """The cell that a look-up asks for, or the instance of one, with where it stands in the netlist and what is said of it."""
    if command.name == "lookup":
        return refusal.name("CELL"), [], []
    module, instance = instances_of(command, refusal.name("CELL"))[0]
    notes = [in_module(module, instance)]
    for connection in instance.connections:
        if connection.port in (refusal.name("FROM"), refusal.name("TO")) and len(connection.parts) == 1:
            part = connection.parts[0]
            bit = f"[{part.select[0]}]" if part.select else ""
            notes.append(f"Its pin {shown(connection.port)} is on the net {shown(part.name)}{bit} of that module.")
    return instance.cell, [command.place("--netlist", instance.token)], notes


def outside(command, refusal):
    """The instance, the value in units, and the ends of the axis that does not reach it."""
    cell_name, places, notes = asked_cell(command, refusal)
    axis, value = refusal.fields["AXIS"], refusal.number("VALUE")
    unit, power = UNITS[axis]
    notes.append(f"The {axis} is {in_units(value, axis)}.")
    key = command.library_key(refusal.fields["CORNER"])
    passed = [
        (table, ends)
        for table, ends in tables_with_ends(command, refusal, cell_name)
        if not ends[0] <= value <= ends[1]
    ]
    for table, (low, high, index) in passed[:1]:
        notes.append(f"{shown(table.name)} of {shown(cell_name)} goes from {plain(low / 10**power)} to {plain(high / 10**power)} {unit}.")
        places.append(command.place(key, index, "the axis" if places else ""))
        places.append(command.place(key, table, "the table"))
    return Finding(places, notes)


def past_time(command, refusal):
    cell_name, places, notes = asked_cell(command, refusal)
    fields = refusal.fields
    library = library_of(command, fields["CORNER"])
    cell = library.cell(cell_name)
    tables = tables_of_arc(cell, refusal.name("FROM"), refusal.name("TO"), fields["EDGE"], fields["PART"]) if cell else []
    key = command.library_key(fields["CORNER"])
    remark = "the table" if places else ""
    return Finding(places + [command.place(key, table, remark) for table in list(tables)[:1]], notes)


def slew_limit(command, refusal):
    slew, elmore = in_units(refusal.number("SLEW"), "slew"), in_units(refusal.number("ELMORE"), "elmore")
    note = f"The slew of the driver is {slew}, and the wire's Elmore sum {elmore}."
    try:
        finding, _ = connection_finding(command, refusal, "PIN")
    except NoPlace:
        return Finding([net_place(command, netlist_of(command), refusal.name("NET"))[0]], [note])
    return Finding(finding.places, finding.notes + [note])


FINDERS = {
    "E11": unknown_cell,
    "E20": cell_fault,
    "E21": corner_shape,
    "E41": outside,
    "E42": slew_limit,
    "E43": past_time,
}
