"""Made libraries with tables of seven by seven values, for the tools that measure; it is no command."""

SLEWS = (1, 4, 10, 20, 35, 60, 100)
LOADS = (0.5, 1, 1.5, 2, 3, 5, 10)
# The cells: their inputs, and the sense of their arcs.
CELLS = {"INV": ("A", "negative_unate"), "BUF": ("A", "positive_unate"), "NAND2": ("AB", "negative_unate")}
# Where the edges of the tables begin and end, in percent of the swing; `gdc` reads over them, and other tools ask for them.
THRESHOLDS = {"input": 50, "output": 50, "slew_lower": 20, "slew_upper": 80}
# The rise and the fall of the delay and of the transition: a part that stands, and those by the slew and by the load.
TABLES = {"cell_rise": (4, 0.2, 6), "cell_fall": (3, 0.15, 5), "rise_transition": (5, 0.3, 4), "fall_transition": (4, 0.25, 3)}


def points(numbers):
    return ", ".join(f"{number:g}" for number in numbers)


def table(name, template, parts, scale):
    """The lines of a table of seven by seven values."""
    least, by_slew, by_load = (part * scale for part in parts)
    yield f"        {name} ({template}) {{\n          values ( \\\n"
    rows = (points(least + by_slew * slew + by_load * load for load in LOADS) for slew in SLEWS)
    yield ", \\\n".join(f'            "{row}"' for row in rows) + " \\\n          );\n        }\n"


def template_lines(template):
    yield f"  lu_table_template ({template}) {{\n"
    yield "    variable_1 : input_net_transition;\n    variable_2 : total_output_net_capacitance;\n"
    yield f'    index_1 ("{points(SLEWS)}");\n    index_2 ("{points(LOADS)}");\n  }}\n'


def cell_lines(cell, inputs, sense, template, scale):
    yield f"  cell ({cell}) {{\n    pin ({', '.join(inputs)}) {{ direction : input; capacitance : 1; }}\n"
    yield "    pin (Z) {\n      direction : output;\n"
    yield f'      timing () {{\n        related_pin : "{" ".join(inputs)}";\n        timing_sense : {sense};\n'
    for name, parts in TABLES.items():
        yield from table(name, template, parts, scale)
    yield "      }\n    }\n  }\n"


def library_of(templates, cells, scale):
    """The lines of a library of these cells, each with its inputs, its sense and its template."""
    yield 'library (L) {\n  time_unit : "1ps";\n  capacitive_load_unit (1, ff);\n'
    for name, percent in THRESHOLDS.items():
        yield "".join(f"  {name}_threshold_pct_{edge} : {percent};\n" for edge in ("rise", "fall"))
    for template in templates:
        yield from template_lines(template)
    for cell, inputs, sense, template in cells:
        yield from cell_lines(cell, inputs, sense, template, scale)
    yield "}\n"


def library(scale=1):
    """The lines of the library, all of whose times are so many times as long."""
    return library_of(["t77"], ((cell, *said, "t77") for cell, said in CELLS.items()), scale)


def many_cells(count, scale=1):
    """The lines of a library of so many gates of two inputs, C0 and on, sixteen of which share a template."""
    templates = [f"t{number}" for number in range((count + 15) // 16)]
    return library_of(templates, ((f"C{number}", *CELLS["NAND2"], templates[number // 16]) for number in range(count)), scale)
