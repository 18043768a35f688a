"""Plants faults in the parasitics of tools/lint_cases.py, and says by the definitions what a tool must list. It is no command.

What is unreached and what closes a loop is found by walks over the rows of a section, one for each resistor.
"""
from lint_cases import Row

KEYWORDS = [b"*D_NET", b"*CONN", b"*CAP", b"*RES", b"*END"]


class Section:
    """The rows of a net, in which faults are planted."""

    def __init__(self, net, rows, number):
        self.net, self.rows, self.number = net, rows, number
        self.is_judged, self.is_whole, self.is_driven = True, True, True

    def block(self, keyword):
        """The rows behind a keyword."""
        starts = [at for at, row in enumerate(self.rows) if row.words[0] == keyword]
        past = [at for at, row in enumerate(self.rows) if row.words[0] in KEYWORDS and starts and at > starts[0]]
        return self.rows[starts[0] + 1 : past[0]] if starts and past else []

    def insert(self, rng, keyword, row):
        """Adds a row at a random place behind its keyword, with the keyword where it is not there."""
        firsts = [row.words[0] for row in self.rows]
        if keyword not in firsts:
            later = KEYWORDS[KEYWORDS.index(keyword) + 1 :]
            self.rows.insert(min(firsts.index(word) for word in later if word in firsts), Row(keyword))
        at = [row.words[0] for row in self.rows].index(keyword) + 1
        self.rows.insert(at + rng.randint(0, len(self.block(keyword))), row)

    def conns(self):
        return [row for row in self.block(b"*CONN") if row.nodes]

    def belongs(self, node):
        joined = {node for row in self.conns() + self.block(b"*RES") for node in row.nodes}
        return node in joined or node[0] == self.net.name

    def counted(self, row):
        """The nodes at which a capacitance counts."""
        return row.nodes if len(row.nodes) == 1 else [node for node in row.nodes if self.belongs(node)]


def reached(resistors, start):
    """The nodes that resistors lead to, by a walk that is done when nothing more is found."""
    found, grown = {start}, True
    while grown:
        more = {node for row in resistors if found & set(row.nodes) for node in row.nodes} - found
        found, grown = found | more, bool(more)
    return found


def closing(section):
    """The resistors whose ends are joined by those before."""
    rows = section.block(b"*RES")
    return [row for at, row in enumerate(rows) if row.nodes[1] in reached(rows[:at], row.nodes[0])]


class Verdict:
    """What a section's rows say against it, with the rows that the mend of strange pins drops."""

    def __init__(self, section, alone):
        self.section, self.net = section, section.net
        self.closing = closing(section)
        self.strange, self.pins_gone, self.first_nodes = [], [], []
        pins = [section.net.driver, *section.net.sinks]
        if alone:
            pins = [section.net.driver, *(row.nodes[0] for row in section.conns() if row.nodes[0] != section.net.driver)]
        self.strange = [row for row in section.conns() if row.nodes[0] not in pins]
        if section.block(b"*RES") and section.is_whole and section.is_driven:
            self.walk(pins)
        self.foreign_then()

    def walk(self, pins):
        section, resistors = self.section, self.section.block(b"*RES")
        nodes = dict.fromkeys(pins + [row.nodes[0] for row in section.conns()])
        for row in section.block(b"*CAP"):
            nodes.update(dict.fromkeys(section.counted(row)))
        nodes.update(dict.fromkeys(node for row in resistors for node in row.nodes))
        met = reached(resistors, section.net.driver)
        for node in nodes:
            if node in met:
                continue
            piece = reached(resistors, node)
            met |= piece
            if piece & {row.nodes[0] for row in self.strange} and not piece & set(pins):
                self.pins_gone += [row for row in resistors if piece & set(row.nodes)]
                self.pins_gone += [row for row in section.block(b"*CAP") if piece & set(section.counted(row))]
            else:
                self.first_nodes.append(node)

    def foreign_then(self):
        """Adds the strange pins, and the couplings that would belong to no net without them."""
        kept = Section(self.net, [row for row in self.section.rows if row not in self.strange], 0)
        for row in self.section.block(b"*CAP"):
            if self.strange and len(row.nodes) == 2 and row not in self.pins_gone and not kept.counted(row):
                self.pins_gone.append(row)
        self.pins_gone += self.strange

    def place_of(self, node):
        section = self.section
        for row in section.conns():
            if row.nodes[0] == node:
                return row, 1
        for row in section.block(b"*CAP") + section.block(b"*RES"):
            counted = row.nodes if row in section.block(b"*RES") else section.counted(row)
            if node in counted:
                return row, 1 + row.nodes.index(node)
        return section.rows[0], 1

    def faults(self):
        """The words of each fault, with the row and the word at which it stands."""
        name = self.net.name
        for row in self.strange:
            yield b"E34 strange pin %s %s" % (name, shown(row.nodes[0])), row, 1
        for node in self.first_nodes:
            yield (b"E35 unreached node %s %s" % (name, shown(node)), *self.place_of(node))
        for row in self.closing:
            yield b"E36 mesh " + name, row, 0


def shown(node):
    return node[0] if node[1] is None else node[0] + b":" + node[1]


class Case:
    """A SPEF file with planted faults. `expected` has the words of each, with its row and word; `%d` stands for the token."""

    def __init__(self, rng, parasitics, alone):
        self.rng, self.parasitics, self.alone = rng, parasitics, alone
        self.head = parasitics.head()
        self.sections = [Section(net, [row.copy() for row in net.rows], at) for at, net in enumerate(parasitics.nets)]
        self.free = list(self.sections)
        rng.shuffle(self.free)
        self.expected, self.planted = [], []

    def plant(self, count):
        kinds = ["loop", "repeated", "unknown", "number", "unreached", "foreign", "syntax"] * 3 + ["index", "unit"]
        kinds += ["no_driver", "several_drivers"] if self.alone else ["antenna", "antenna", "missing"] * 3
        if self.rng.random() < 0.1:
            # Behind a broken head it is not asked what is missing or unknown.
            kinds = [kind for kind in kinds if kind not in ("missing", "unknown", "unit")]
            self.planted += ["head"] * self.in_head()
        while len(self.planted) < count and self.free:
            kind = self.rng.choice(kinds)
            if kind in ("index", "unit"):
                if kind not in self.planted and getattr(self, kind)():
                    self.planted.append(kind)
            elif getattr(self, kind)(self.free[-1]):
                self.free.pop()
                self.planted.append(kind)

    def expect(self, words, row, at):
        self.expected.append((words, row, at))
        return True

    def ref(self, head, tail):
        return head + self.parasitics.dialect.delimiter + tail

    def loop(self, section):
        if not section.net.nodes:
            return False
        ends = [self.rng.choice(section.net.nodes) for _ in range(2)]
        section.insert(self.rng, b"*RES", section.net.resistor(*ends))
        return True

    def antenna(self, section):
        """A strange pin: alone, with a capacitance or a coupling, on the tree, or with resistors of its own."""
        rng, net, dialect = self.rng, section.net, self.parasitics.dialect
        pin = (b"ant_%d" % rng.randint(1, 99), b"A")
        word = self.ref(*pin)
        section.insert(rng, b"*CONN", Row(b"*I", word, b"I", *rng.choice([[], [b"*L", b"0.5"]]), nodes=[pin]))
        kind = rng.choice(["alone", "capacitance", "coupling"] + (["tree", "island"] if net.nodes else ["coupling"]))
        if kind in ("capacitance", "island", "tree"):
            section.insert(rng, b"*CAP", Row(b"5", word, dialect.capacitance(), nodes=[pin]))
        if kind == "coupling":
            other = rng.choice([(b"other", b"1"), net.driver])
            section.insert(rng, b"*CAP", Row(b"5", word, dialect.node(other), dialect.capacitance(), nodes=[pin, other]))
        if kind == "tree":
            node = rng.choice(net.nodes)
            section.insert(rng, b"*RES", Row(b"5", word, dialect.node(node), b"3", nodes=[pin, node]))
        if kind == "island":
            node = (net.name, b"77")
            section.insert(rng, b"*RES", Row(b"5", dialect.node(node), word, b"3", nodes=[node, pin]))
        return True

    def missing(self, section):
        self.sections.remove(section)
        return self.expect(b"E33 missing net " + section.net.name, None, 0)

    def repeated(self, section):
        copy = Section(section.net, [row.copy() for row in section.rows], len(self.sections))
        self.sections.append(copy)
        return self.expect(b"E32 repeated net " + section.net.name, copy.rows[0], 1)

    def unknown(self, section):
        """An index that is not in the map, in a connection, a capacitance to ground or a resistor."""
        rows = [row for row in section.rows if row.nodes and not (row in section.block(b"*CAP") and len(row.nodes) == 2)]
        if section.conns() and self.rng.random() < 0.2:
            section.rows[0].words[1] = b"*99993"
            section.is_judged = False
            return self.expect(b"E31 name index unknown token %d", section.rows[0], 1)
        row = self.rng.choice(rows)
        at = self.rng.randint(1, len(row.nodes))
        row.words[at] = self.rng.choice([b"*99991", self.ref(b"*99992", b"A")])
        section.is_whole = False
        if row in section.block(b"*RES"):
            # It joins nothing that is known.
            row.nodes = tuple((b"unknown", number) if number == at else node for number, node in enumerate(row.nodes, 1))
        else:
            row.nodes = ()
        return self.expect(b"E31 name index unknown token %d", row, at)

    def number(self, section):
        rows = [row for row in section.rows if row.nodes and (row not in section.conns() or b"*L" in row.words)]
        row = self.rng.choice(rows)
        bad = [b"1" * 31, b"1e100", b"-0.5", b"1:2:-3", b"0.1:1e-100:2", b"-1:9e15:1"]
        large = [b"9e15", b"1:9e15:1", b"1" * 30] if "unit" not in self.planted else []
        at = row.words.index(b"*L") + 1 if b"*L" in row.words else len(row.words) - 1
        row.words[at] = self.rng.choice(bad + large)
        fault = b"value too large" if row.words[at] in large else b"bad number"
        return self.expect(b"E30 spef number %s token %%d" % fault, row, at)

    def unreached(self, section):
        """A capacitance at a node of its own, resistors of their own, or a resistor that is left out."""
        rng, dialect, name = self.rng, self.parasitics.dialect, section.net.name
        if not section.net.nodes:
            return False
        nodes = [(name, b"91"), (name, b"92")]
        kind = rng.choice(["capacitance", "island", "gap"])
        if kind == "gap":
            section.rows.remove(rng.choice(section.block(b"*RES")))
            # Without any resistor all stands on the driver, and behind the one there may be nothing.
            kind = kind if Verdict(section, self.alone).first_nodes else "island"
        if kind == "island":
            section.insert(rng, b"*RES", Row(b"5", *map(dialect.node, nodes), b"3", nodes=nodes))
        if kind == "capacitance" or rng.random() < 0.5:
            section.insert(rng, b"*CAP", Row(b"5", dialect.node(nodes[1]), dialect.capacitance(), nodes=nodes[1:]))
        return True

    def foreign(self, section):
        nodes = [(b"zz_1", b"1"), (b"zz_2", b"1")]
        row = Row(b"5", *(self.ref(*node) for node in nodes), b"1.5", nodes=nodes)
        section.insert(self.rng, b"*CAP", row)
        return self.expect(b"E37 foreign coupling %s token %%d" % section.net.name, row, 1)

    def index(self):
        if not self.parasitics.map:
            return False
        row = Row(self.rng.choice([b"*", b"*00"]) + self.rng.choice(self.parasitics.map).words[0][1:], b"again")
        self.head.append(row)
        return self.expect(b"E31 name index repeated token %d", row, 0)

    def unit(self):
        """A unit of another quantity, of no size, or none."""
        at = self.rng.randrange(2)
        row = (self.parasitics.cap_unit, self.parasitics.res_unit)[at]
        if "number" in self.planted or row not in self.head:
            return False
        place = self.head.index(row)
        kind = self.rng.choice([[b"1", b"F"], [b"0", row.words[2]], [b"1e3", b"NS"], None])
        if kind is None:
            del self.head[place]
            return self.expect(b"E30 spef number bad unit token 0", self.head[0], 0)
        self.head[place] = Row(row.words[0], *kind)
        return self.expect(b"E30 spef number bad unit token %d", self.head[place], 1)

    def in_head(self):
        """A form that is not read, or an index without a name."""
        at = self.rng.randint(1, len(self.head))
        if at > 1 and self.head[at - 1] in self.parasitics.map:
            row = Row(b"*88888")
            self.head.insert(at, row)
            return self.expect(b"E04 spef syntax token %d", row, 1)
        row = Row(b"*DEFINE", b"u_ram", b'"ram.spef"')
        self.head.insert(at, row)
        return self.expect(b"E05 spef form *DEFINE token %d", row, 0)

    def syntax(self, section):
        section.is_judged = False
        kind = self.rng.choice(["nan", "way", "induc", "end", "form"])
        rows = {"nan": section.block(b"*RES"), "way": section.conns()}.get(kind, section.rows)
        if not rows:
            kind = "end"
        if kind in ("nan", "way"):
            row, at = self.rng.choice(rows), 3 if kind == "nan" else 2
            row.words[at] = b"nan" if kind == "nan" else b"X"
            return self.expect(b"E04 spef syntax token %d", row, at)
        if kind == "end":
            section.rows.pop()
            return self.expect(b"E04 spef syntax token %d", section.rows[-1], len(section.rows[-1].words))
        row = Row(b"*INDUC" if kind == "induc" else b"*R_NET", b"1")
        section.rows.insert(len(section.rows) - (kind == "induc"), row)
        return self.expect(b"E05 spef form %s token %%d" % row.words[0], row, 0)

    def no_driver(self, section):
        row = next(row for row in section.conns() if row.nodes[0] == section.net.driver)
        row.words[2] = b"B"
        section.is_driven = False
        return self.expect(b"E60 no driver " + section.net.name, section.rows[0], 1)

    def several_drivers(self, section):
        pin = (b"zz_3", b"Z")
        section.insert(self.rng, b"*CONN", Row(b"*I", self.ref(*pin), b"O", nodes=[pin]))
        section.is_driven = False
        return self.expect(b"E61 several drivers " + section.net.name, section.rows[0], 1)

    def verdicts(self):
        return [Verdict(section, self.alone) for section in self.sections if section.is_judged]

    def all_rows(self):
        return [*self.head, *(row for section in self.sections for row in section.rows)]
