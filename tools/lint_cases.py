"""Makes small designs with parasitics, and plants faults in these, for tools/check_lint. It is no command.

A SPEF file is a list of rows, and a row a list of words. A planted fault knows the row and the word at which it stands, and its
words as the program has them. So places and numbers of tokens come of the rows, and not of a reader of SPEF.
"""
import itertools


class Row:
    """A line of a file: its words, the nodes that they name, and a comment behind them."""

    def __init__(self, *words, nodes=(), comment=b""):
        self.words, self.nodes, self.comment = list(words), tuple(nodes), comment

    def copy(self):
        return Row(*self.words, nodes=self.nodes, comment=self.comment)


class Design:
    """A netlist of two levels, and of each net its driver and its sinks as nodes."""

    def __init__(self, rng):
        self.rng = rng
        self.nets, self.lines = {}, []
        self.wires, self.outputs = [], []
        # names of signals as the netlist writes them, by their flat names
        self.signals = {}
        bits = rng.randint(1, 3)
        for name in ["a", "b"] + [f"d[{bit}]" for bit in range(bits)]:
            self.signal(name, name, (name.encode(), None))
        self.bits = bits
        for number in range(rng.randint(3, 9)):
            self.gate(number)
        self.finish()

    def signal(self, name, written, driver):
        self.nets[name.encode()] = (driver, [])
        self.signals[name] = written

    def escaped(self, name):
        """A name that must be escaped, now and then, with the blank that ends it."""
        odd = self.rng.choice(["", "", "", "", ".x", "/y", "-1", "[7]", "$2", ":z"])
        return (f"\\{name}{odd} " if odd else name), name + odd

    def gate(self, number):
        rng = self.rng
        kind = rng.choice(["INV", "NAND2", "XOR", "DFF", "pair", "pair"])
        written, instance = self.escaped(f"u{number}")
        wire_written, wire = self.escaped(f"w{number}")
        ins = [rng.choice(list(self.signals)) for _ in range(2)]
        pins = {"INV": ("A",), "NAND2": ("A", "B"), "XOR": ("A", "B"), "DFF": ("CK", "D"), "pair": ("i", "j")}[kind]
        out = {"DFF": "Q", "pair": "o"}.get(kind, "Z")
        joined = [f".{pin}({self.signals[name]})" for pin, name in zip(pins, ins)]
        self.lines.append(f"  {kind} {written} ({', '.join(joined + [f'.{out}({wire_written})'])});")
        self.wires.append(wire_written)
        inner = instance.encode()
        for pin, name in zip(pins, ins):
            sink = (inner + b"/g", {"i": b"A", "j": b"B"}[pin]) if kind == "pair" else (inner, pin.encode())
            self.nets[name.encode()][1].append(sink)
        driver = (inner + b"/h", b"Z") if kind == "pair" else (inner, out.encode())
        self.signal(wire, wire_written, driver)
        if kind == "pair":
            self.nets[inner + b"/m"] = ((inner + b"/g", b"Z"), [(inner + b"/h", b"A")])

    def finish(self):
        """Signals that nothing takes go to outputs by an inverter each."""
        idle = [name for name in self.signals if not self.nets[name.encode()][1]]
        for number, name in enumerate(idle or [list(self.signals)[-1]]):
            port = f"q[{number}]"
            self.lines.append(f"  INV o{number} (.A({self.signals[name]}), .Z({port}));")
            self.nets[name.encode()][1].append((b"o%d" % number, b"A"))
            self.nets[port.encode()] = ((b"o%d" % number, b"Z"), [(port.encode(), None)])
            self.outputs.append(port)

    def text(self):
        pair = "module pair (i, j, o);\n  input i, j;\n  output o;\n  wire m;\n"
        pair += "  NAND2 g (.A(i), .B(j), .Z(m));\n  INV h (.A(m), .Z(o));\nendmodule\n"
        top = f"module top (a, b, d, q);\n  input a, b;\n  input [{self.bits - 1}:0] d;\n  output [{len(self.outputs) - 1}:0] q;\n"
        wires = "".join(f"  wire {wire};\n" for wire in self.wires)
        return (pair + top + wires + "\n".join(self.lines) + "\nendmodule\n").encode()


class Dialect:
    """How a file writes names, numbers and lines."""

    def __init__(self, rng):
        self.rng = rng
        self.divider = rng.choice([b"/", b"/", b".", b"|"])
        self.delimiter = rng.choice([b":", b":", b"#"])
        self.bus = rng.choice([b"[]", b"<>", b""])
        self.farads = rng.choice([(b"1", b"FF", 1), (b"1", b"PF", 1000), (b"0.5", b"ff", 0.5), (b"1e-2", b"Pf", 10)])
        self.ohms = rng.choice([(b"1", b"OHM", 1), (b"1.0", b"KOHM", 1000)])
        self.has_map = rng.random() < 0.6
        self.has_triples = rng.random() < 0.3
        self.has_comments = rng.random() < 0.5
        self.rows_a_line = rng.choice([1, 1, 1, 3, 1000])
        self.indices = {}

    def spelled(self, text):
        marks = {b"/": self.divider, b"[": self.bus[:1] or b"\\[", b"]": self.bus[1:] or b"\\]"}
        out = b""
        for byte in (text[at : at + 1] for at in range(len(text))):
            out += marks[byte] if byte in marks else byte if byte.isalnum() or byte == b"_" else b"\\" + byte
        return out

    def head(self, name):
        """A name, or now and then its index, where it is mapped."""
        if name in self.indices and self.rng.random() < 0.9:
            return b"*" + b"0" * (self.rng.random() < 0.05) + self.indices[name]
        return self.spelled(name)

    def node(self, node):
        head, tail = node
        return self.head(head) + (b"" if tail is None else self.delimiter + self.spelled(tail))

    def number(self, value, unit):
        """A value in the unit, in one of the ways to write it."""
        text = f"{value / unit:.9f}".rstrip("0").rstrip(".") or "0"
        text = self.rng.choice([text, f"{value / unit:.4e}", "+" + text])
        if self.has_triples and self.rng.random() < 0.4:
            text = f"{value / unit * 0.8:.9f}:{text}:{value / unit * 1.3:.9f}"
        return text.encode()

    def capacitance(self):
        return self.number(self.rng.randint(1, 400) / 100, self.farads[2])

    def resistance(self):
        return self.number(self.rng.randint(0, 3000) / 10, self.ohms[2])


class Net:
    """The section of a net as rows, and the nodes that its resistors join."""

    def __init__(self, rng, dialect, name, driver, sinks, has_conn):
        self.rng, self.dialect, self.name, self.driver, self.sinks = rng, dialect, name, driver, sinks
        self.nodes = []
        confidence = [b"*V", b"1"] if rng.random() < 0.1 else []
        self.rows = [self.row(b"*D_NET", dialect.head(name), dialect.capacitance(), *confidence)]
        if has_conn:
            self.rows.append(self.row(b"*CONN"))
            self.rows += [self.conn(node, node == driver) for node in rng.sample([driver, *sinks], len(sinks) + 1)]
        tree = self.tree() if rng.random() < 0.7 else []
        if self.nodes and has_conn and rng.random() < 0.5:
            self.rows.append(self.row(b"*N", dialect.node((name, b"1")), b"*C", b"0.5", b"7"))
        self.rows += [self.row(b"*CAP"), *self.capacitances(has_conn)]
        self.rows += [self.row(b"*RES"), *tree] if tree else []
        self.rows.append(self.row(b"*END"))

    def row(self, *words, nodes=()):
        comments = [b"", b"", b" // a note", b" /* of *D_NET\n two lines */"]
        return Row(*words, nodes=nodes, comment=self.rng.choice(comments) if self.dialect.has_comments else b"")

    def conn(self, node, drives):
        words = [b"*P" if node[1] is None else b"*I", self.dialect.node(node), b"I" if drives == (node[1] is None) else b"O"]
        extra = [[b"*C", b"1.5", b"-2"], [b"*D", b"INVX1"], [b"*S", b"1", b"2"]]
        words += self.rng.choice(extra) if self.rng.random() < 0.5 else []
        words += [b"*L", self.dialect.capacitance()] if not drives and self.rng.random() < 0.4 else []
        return self.row(*words, nodes=[node])

    def resistor(self, one, other):
        ends = self.rng.sample([one, other], 2)
        number = b"%d" % self.rng.randint(1, 99)
        return self.row(number, *map(self.dialect.node, ends), self.dialect.resistance(), nodes=ends)

    def tree(self):
        """Joins each node to one that is joined already."""
        rng = self.rng
        inner = [(self.name, b"%d" % number) for number in range(1, rng.randint(1, 3) + 1)]
        rest = [node for node in dict.fromkeys([*inner[1:], *self.sinks])]
        self.nodes, resistors = [self.driver], []
        for node in [inner[0], *rng.sample(rest, len(rest))]:
            resistors.append(self.resistor(rng.choice(self.nodes), node))
            self.nodes.append(node)
        rng.shuffle(resistors)
        return resistors

    def capacitances(self, has_conn):
        rng, dialect = self.rng, self.dialect
        made = []
        for _ in range(rng.randint(1, 4)):
            node = rng.choice(self.nodes or [self.driver, *self.sinks, (self.name, b"1")])
            made.append(self.row(b"1", dialect.node(node), dialect.capacitance(), nodes=[node]))
        if rng.random() < 0.5:
            # A node of the net: by its resistors, by its connections, or by its name alone.
            own = (self.name, b"1") if self.nodes or not has_conn else rng.choice([self.driver, (self.name, b"7")])
            ends = rng.sample([own, (b"other_%d" % rng.randint(1, 9), b"1")], 2)
            made.append(self.row(b"2", *map(dialect.node, ends), dialect.capacitance(), nodes=ends))
        return made


class Parasitics:
    """A SPEF file of a design: its head, its map and its nets."""

    def __init__(self, rng, design, needs_conns):
        self.rng = rng
        self.dialect = dialect = Dialect(rng)
        self.cap_unit = Row(b"*C_UNIT", *dialect.farads[:2])
        self.res_unit = Row(b"*R_UNIT", *dialect.ohms[:2])
        self.map = self.made_map(design) if dialect.has_map else []
        self.bus = [dialect.bus] if rng.random() < 0.5 else [dialect.bus[:1], dialect.bus[1:]]
        names = list(design.nets)
        rng.shuffle(names)
        self.nets = [Net(rng, dialect, name, *design.nets[name], needs_conns or rng.random() < 0.8) for name in names]

    def made_map(self, design):
        ends = itertools.chain(*([driver, *sinks] for driver, sinks in design.nets.values()))
        heads = dict.fromkeys([*design.nets, *(head for head, _ in ends)])
        kept = [name for name in heads if self.rng.random() < 0.8]
        self.dialect.indices = {name: b"%d" % (number * 3 + 1) for number, name in enumerate(kept)}
        return [Row(b"*" + index, self.dialect.spelled(name)) for name, index in self.dialect.indices.items()]

    def head(self):
        rows = [Row(b"*SPEF", b'"IEEE 1481-1998"'), Row(b"*DESIGN", b'"top"'), Row(b"*DATE", b'"a day // of *D_NET"')]
        rows += [Row(b"*DIVIDER", self.dialect.divider), Row(b"*DELIMITER", self.dialect.delimiter)]
        rows += [Row(b"*BUS_DELIMITER", *self.bus)] if self.dialect.bus else []
        rows += [Row(b"*T_UNIT", b"1", b"PS"), *(row for row in (self.cap_unit, self.res_unit) if row)]
        return rows + ([Row(b"*NAME_MAP"), *self.map] if self.map else [])
