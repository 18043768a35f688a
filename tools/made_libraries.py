"""Made libraries, whole and in halves of other units and names, with a netlist over them; for tools/check_lib, and no command.

Times are fractions of picoseconds and loads fractions of femtofarads. They are written in a unit exactly.
"""
import random
from fractions import Fraction

TIME_UNITS = {"1ps": 1, "10ps": 10, "100ps": 100, "1ns": 1000, None: 1000}
LOAD_UNITS = {("1", "ff"): 1, ("1", "pf"): 1000, ("0.001", "pF"): 1, ("2", "pf"): 2000, ("2.5E-1", "FF"): Fraction(1, 4), ("1e+1", "ff"): 10}
TIMES, LOADS = "input_net_transition", "total_output_net_capacitance"
# The shapes of tables: their variables in order. The text of `s` is one in both halves, those of the others differ.
SHAPES = {"sl": (TIMES, LOADS), "ls": (LOADS, TIMES), "s": (TIMES,), "l": (LOADS,), "scalar": ()}
TABLES = ("cell_rise", "rise_transition", "cell_fall", "fall_transition")
HALVES = (0, 1)


def digits_of(value):
    """The digits of a fraction that is a decimal, and the power of ten behind them."""
    power = 0
    while value.denominator != 1:
        value, power = value * 10, power - 1
    return value.numerator, power


class Numbers:
    """Writes numbers in each form that Liberty has, by a seed."""

    def __init__(self, seed):
        self.chance = random.Random(seed)

    def written(self, value, unit):
        digits, power = digits_of(Fraction(value) / unit)
        form = self.chance.randrange(6)
        if form == 0:
            return f"{digits}{self.chance.choice('eE')}{power}"
        if form == 1:
            return f"+{digits}.e{power:+}"
        whole = f"{digits:0{1 - power}d}"
        plain = f"{whole[:power]}.{whole[power:]}" if power else whole
        return plain.lstrip("0") if form == 2 and power and plain[0] == "0" else f"0{plain}" if form == 3 else plain

    def listed(self, name, values, unit):
        """A list of numbers, in one text or in several, over lines or not."""
        texts = [self.written(value, unit) for value in values]
        place = self.chance.randint(1, len(texts))
        rows = [f'"{self.row(row)}"' for row in (texts[:place], texts[place:]) if row]
        return name + self.chance.choice(("(", " (", " ( \\\n")) + self.chance.choice((", ", ",", " ", ", \\\n    ")).join(rows) + ");"

    def row(self, texts):
        return self.chance.choice((", ", ",", " ", ", \\\n  ")).join(texts)


class Cell:
    """A cell by its half, its input pins with their capacitances, or None for the default, and its outputs with their tables."""

    def __init__(self, name, half, chance):
        self.name, self.half = name, half
        self.is_clocked = name.startswith("DFF")
        inputs = ["CK", "D"] if self.is_clocked else ["A", "B", "C"][: chance.randint(1, 3)]
        self.inputs = {pin: chance.choice((None, tenths(chance, 0, 40), tenths(chance, 0, 40))) for pin in inputs}
        self.edges = {pin: chance.random() < 0.3 for pin in inputs}
        self.outputs = {pin: self.timings(chance) for pin in (["Z"] if chance.random() < 0.8 else ["Z", "ZN"])}

    def timings(self, chance):
        """Of each `timing` group the related pins, the sense, and the shape and the numbers of each table."""
        related = ["CK"] if self.is_clocked else list(self.inputs)
        groups = [related] if chance.random() < 0.6 else [[pin] for pin in related]
        return [(names, chance.choice(("positive_unate", "negative_unate", "non_unate")), self.tables(chance)) for names in groups]

    @staticmethod
    def tables(chance):
        return {table: (chance.choice(list(SHAPES)), [tenths(chance, 1, 600) for _ in range(9)]) for table in TABLES}


def tenths(chance, least, most):
    """A number that sometimes lies at half a grain of the program, or next to it."""
    value = Fraction(chance.randint(least * 10, most * 10), 10)
    return value + chance.choice((0, 0, 0, Fraction(5, 10**7), Fraction(4999999999, 10**16), Fraction(123456789, 10**12)))


class MadeLibraries:
    """The cells of both halves, with the axes of their tables and their default capacitances."""

    def __init__(self, seed, scale=1):
        chance = random.Random(seed)
        names = ["INV", "BUF", "NAND2", "XOR2", "AOI21", "MUX", "DFF", "DFFN", "OAI"]
        self.cells = [Cell(name, place % 2, chance) for place, name in enumerate(chance.sample(names, chance.randint(4, len(names))))]
        self.seed, self.scale = seed, Fraction(scale)
        self.defaults = [chance.choice((None, 0, 2, Fraction(7, 2))) for _ in HALVES]
        self.slews = [[5, 20, 80], [Fraction(5), Fraction(25), Fraction(641, 8)]]
        self.loads = [[1, 4, 16], [Fraction(1, 2), Fraction(4), Fraction(33, 2)]]

    def points(self, half, shape, variable):
        half = 0 if shape == "s" else half
        return self.slews[half] if variable == TIMES else self.loads[half]

    def text(self, half, units, seed):
        """One half, or the whole where that is None."""
        return Text(self, half, units, Numbers(seed)).library()


class Text:
    """The text of a library, or of a half, in some units."""

    def __init__(self, made, half, units, numbers):
        self.made, self.half, self.units, self.numbers = made, half, units, numbers
        self.time, self.load = TIME_UNITS[units[0]], LOAD_UNITS[units[1]]

    def template_name(self, half, shape):
        """In a half, names that the other half has too."""
        return f"t_{shape}" if self.half is not None else f"t{half}_{shape}"

    def unit(self, variable):
        return self.time if variable == TIMES else self.load

    def templates(self):
        for half in HALVES if self.half is None else (self.half,):
            for shape, variables in SHAPES.items():
                if variables:
                    yield f"  lu_table_template ({self.template_name(half, shape)}) {{\n"
                    for place, variable in enumerate(variables, 1):
                        points = self.made.points(half, shape, variable)
                        yield f"    variable_{place} : {variable};\n    {self.numbers.listed(f'index_{place}', points, self.unit(variable))}\n"
                    yield "  }\n"

    def table(self, cell, name, shape, values, scale):
        variables = SHAPES[shape]
        count = 3 ** len(variables)
        template = self.template_name(cell.half, shape) if variables else "scalar"
        own = ""
        if variables and len(name) % 2:
            points = [point + 1 for point in self.made.points(cell.half, shape, variables[0])]
            own = self.numbers.listed("index_1", points, self.unit(variables[0]))
        values = self.numbers.listed("values", [value * scale for value in values[:count]], self.time)
        return f"        {name} ({template}) {{ {own} {values} }}\n"

    def capacitance(self, cell, pin):
        """That of an input pin; the default of its half stands in the whole library by itself."""
        value, write = cell.inputs[pin], lambda number: self.numbers.written(number, self.load)
        if value is None:
            default = self.made.defaults[cell.half]
            is_default = self.half is not None or default == self.made.defaults[0]
            return "" if is_default else f"capacitance : {write(default or 0)};"
        if cell.edges[pin]:
            return f"fall_capacitance : {write(value)}; rise_capacitance : {write(value / 2)};"
        return f'capacitance : "{write(value)}";' if len(pin) == 1 else f"capacitance : {write(value)}\n"

    def cell(self, cell, scale=1):
        yield f"  /* {cell.name} */\n  cell ({cell.name}) {{ area : 2.5\n"
        for pin in cell.inputs:
            yield f"    pin ({pin}) {{ direction : input; {self.capacitance(cell, pin)} }}\n"
        for pin, timings in cell.outputs.items():
            yield f'    pin ("{pin}") {{ direction : "output"; max_capacitance : 9; // no {{\n'
            for related, sense, tables in timings:
                yield f'      timing () {{ related_pin : "{" ".join(related)}"; timing_sense : {sense};\n'
                if cell.is_clocked:
                    yield "        timing_type : rising_edge;\n"
                for name, (shape, values) in tables.items():
                    yield self.table(cell, name, shape, values, scale * self.made.scale)
                yield "      }\n"
            yield "    }\n"
        yield "  }\n"

    def library(self):
        (time, load), half = self.units, self.half
        lines = [f"library (half{half}) {{\n" if half is not None else "library (whole) {\n"]
        lines.append(f'  time_unit : "{time}";\n' if time else "")
        lines.append(f"  capacitive_load_unit ({load[0]}, {load[1]});\n  nom_voltage : 1.8\n")
        default = self.made.defaults[half or 0]
        if default is not None:
            lines.append(f"  default_input_pin_cap : {self.numbers.written(default, self.load)};\n")
        lines += self.templates()
        for cell in self.made.cells:
            if half is None or cell.half == half:
                lines += self.cell(cell)
        if half == 1:
            # Another cell of the name of one of the first half, which that wins over.
            lines += self.cell(self.made.cells[0], scale=3)
        return "".join([*lines, "}\n"])


class Netlist:
    """A netlist of two levels over some cells, and the same with power pins and with cells without pins, as it comes of a layout."""

    def __init__(self, cells, seed):
        self.cells, self.chance = cells, random.Random(seed)
        self.inner, self.outer = self.instances(4), self.instances(10)

    def instances(self, count):
        """Of each instance its cell, its inputs as numbers of nets, and the numbers of the nets that it drives."""
        found, nets = [], 3
        for _ in range(count):
            cell = self.chance.choice(self.cells)
            inputs = [self.chance.randrange(nets) for _ in cell.inputs]
            found.append((cell, inputs, list(range(nets, nets + len(cell.outputs)))))
            nets += len(cell.outputs)
        return found

    def used(self):
        return {cell.name for cell, _, _ in self.inner + self.outer}

    @staticmethod
    def lines(instances, power):
        for number, (cell, inputs, outputs) in enumerate(instances):
            pins = [*zip(cell.inputs, inputs), *zip(cell.outputs, outputs)]
            joined = [f".{pin}(n{net})" for pin, net in pins] + power
            yield f"  {cell.name} \\u.{number} ({', '.join(joined)});\n"

    def module(self, name, instances, power, more):
        last = instances[-1][2][-1]
        yield f"module {name} (n0, n1, n2, n{last});\n  input n0, n1, n2;\n  output n{last};\n"
        yield from self.lines(instances, power)
        yield more + "endmodule\n"

    def text(self, is_physical):
        power = [".VDD(vdd)", ".VSS(1'b0)"] if is_physical else []
        fill = "  FILL1 f0 (.VDD(vdd), .VSS(vss)), f1 (.VSS(vss));\n  TAPX t ();\n" if is_physical else ""
        inner_last, outer_last = self.inner[-1][2][-1], self.outer[-1][2][-1]
        ports = f".n0(n{outer_last}), .n1(n1), .n2(n2), .n{inner_last}(low)"
        lower = f"  inner \\i[0] ({ports});\n"
        return "".join([*self.module("inner", self.inner, power, fill), *self.module("top", self.outer, power, lower + fill)])

    def spef(self):
        """Parasitics of the nets at the top, each a star whose legs grow."""
        lines = ['*SPEF "IEEE 1481-1998"\n*DIVIDER /\n*DELIMITER :\n*C_UNIT 1 FF\n*R_UNIT 1 OHM\n']
        sinks = {}
        for number, (cell, inputs, _) in enumerate(self.outer):
            for pin, net in zip(cell.inputs, inputs):
                sinks.setdefault(net, []).append(f"u\\.{number}:{pin}")
        for number, (cell, _, outputs) in enumerate(self.outer[:-1]):
            for pin, net in zip(cell.outputs, outputs):
                driver, legs = f"u\\.{number}:{pin}", sinks.get(net, [])
                lines.append(f"*D_NET n{net} 1 *CONN *I {driver} O *CAP 1 {driver} 0.7\n*RES\n")
                lines += [f"{place} {driver} {leg} {10 * place + net}.5\n" for place, leg in enumerate(legs, 1)]
                lines.append("*END\n")
        return "".join(lines)
