"""What a section of a SPEF file says: the nodes of its entries, and the faults of their names and numbers."""
from parasitics import BAD_NUMBER, FOREIGN_COUPLING, REPEATED_NET, SECTIONS, TOO_LARGE, UNKNOWN_INDEX
from quantities import MOST_FARADS, MOST_OHMS, read_value

VALUE_ORDER = {"bad number": BAD_NUMBER, "value too large": TOO_LARGE}


class Elements:
    """The elements of a net, each with its place in the section.

    `conns` has (entry, node) and `listed` the first entry of each node; `resistors` has (place, node, node), and
    `capacitances` has (entry, nodes that it counts at). The sums are typical members in the units of the file.
    """

    def __init__(self, section, names):
        self.section, self.part, self.names = section, section.part, names
        self.net = None
        self.conns, self.listed, self.resistors, self.capacitances = [], {}, [], []
        self.joined = set()
        self.capacitance = self.resistance = 0.0
        # An entry of an unknown node is left out, so that no node of the net can be called unreached, nor a coupling foreign.
        self.whole = self.all_listed = True

    def drivers(self):
        """The connections that drive the net: output pins of instances, and input ports."""
        words = self.part.words
        return [node for node, (first, _, at, _) in self.listed.items() if words[at + 1] == (b"I" if words[first] == b"*P" else b"O")]

    def nodes(self):
        """The nodes of the net in the order in which the program numbers them, behind its pins."""
        nodes = dict.fromkeys(self.listed)
        for _, counted in self.capacitances:
            nodes.update(dict.fromkeys(counted))
        for _, first, second in self.resistors:
            nodes.update(dict.fromkeys((first, second)))
        return nodes

    def place_of(self, node):
        """Where a node first stands in the section, or the name of the net where it does not."""
        if node in self.listed:
            return self.listed[node][2]
        entries = [(at + 1, second) for (at, second, _), nodes in self.capacitances if node in nodes]
        entries += [(at + 1, at + 2) for at, *nodes in self.resistors if node in nodes]
        for first, second in entries[:1]:
            return first if second is None or self.names.node(self.part.words[first]) == node else second
        return 1

    def belongs(self, node):
        """Whether a node is one of the net: a coupling counts only there."""
        return node is not None and (node in self.listed or node in self.joined or node[0] == self.net)


class ElementsReader:
    """Reads the elements of each section, and adds their faults to those of the file."""

    def __init__(self, file):
        self.file = file
        # the token of the name of each net that was met
        self.nets = {}
        # Most nodes stand several times in a section. Those of other sections are not kept.
        self.known = {}

    def read(self, section):
        elements = Elements(section, self.file.names)
        self.known.clear()
        self.read_name(elements)
        # What stands in front of a fault of syntax is not all of the net.
        if not section.broken:
            self.read_conns(elements)
            self.read_resistors(elements)
            self.read_capacitances(elements)
        return elements

    def fault(self, token, order, words, detail):
        self.file.add((SECTIONS, token.number, order), token.start, words, detail)

    def unknown_index(self, part, at):
        # Where the head has a fault of syntax the map may lack what is written.
        if self.file.head.broken:
            return
        token = part.tokens[at]
        words = b"E31 name index unknown token %d" % token.number
        self.fault(token, UNKNOWN_INDEX, words, part.words[at] + b" is not in the name map")

    def node(self, elements, at):
        """The node at a place, or None and a fault."""
        word = elements.part.words[at]
        node = self.known.get(word)
        if node is None:
            node = self.known[word] = self.file.names.node(word)
            if node is None:
                self.unknown_index(elements.part, at)
                elements.whole = False
        return node

    def value(self, part, at, unit, most):
        number, fault = read_value(part.words[at], unit, most)
        if fault:
            token = part.tokens[at]
            words = b"E30 spef number %s token %d" % (fault.encode(), token.number)
            self.fault(token, VALUE_ORDER[fault], words, part.words[at])
        return number

    def farads(self, part, at):
        return self.value(part, at, self.file.farads, MOST_FARADS)

    def read_name(self, elements):
        part = elements.part
        elements.net = self.file.names.net(part.words[1])
        if elements.net is None:
            self.unknown_index(part, 1)
            return
        first = self.nets.setdefault(elements.net, part.tokens[1])
        if first is not part.tokens[1]:
            line, _ = self.file.places.of(first.start)
            words = b"E32 repeated net " + elements.net
            self.fault(part.tokens[1], REPEATED_NET, words, b"the first section is on line %d" % line)

    def read_conns(self, elements):
        for entry in elements.section.conns:
            node = self.node(elements, entry[2])
            if node is None:
                elements.all_listed = False
                continue
            elements.conns.append((entry, node))
            if node not in elements.listed:
                elements.listed[node] = entry
                if entry[3] is not None:
                    self.farads(elements.part, entry[3])

    def read_resistors(self, elements):
        part = elements.part
        for at in elements.section.resistors:
            first, second = self.node(elements, at + 1), self.node(elements, at + 2)
            elements.resistance += self.value(part, at + 3, self.file.ohms, MOST_OHMS)
            elements.joined.update((first, second))
            if first is not None and second is not None:
                elements.resistors.append((at, first, second))
        elements.joined.discard(None)

    def read_capacitances(self, elements):
        for entry in elements.section.capacitances:
            at, second, value = entry
            nodes = [self.node(elements, at + 1)]
            elements.capacitance += self.farads(elements.part, value)
            if second is not None:
                nodes.append(self.node(elements, second))
                self.ask_coupling(elements, at, nodes)
                nodes = [node for node in nodes if elements.belongs(node)]
            if nodes and nodes[0] is not None:
                elements.capacitances.append((entry, nodes))

    def ask_coupling(self, elements, at, nodes):
        """A coupling counts nowhere if neither of its nodes belongs to the net. What is unknown in front of it is told already."""
        if elements.net is None or nodes[0] is None or not elements.all_listed or any(map(elements.belongs, nodes)):
            return
        token = elements.part.tokens[at + 1]
        words = b"E37 foreign coupling %s token %d" % (elements.net, token.number)
        self.fault(token, FOREIGN_COUPLING, words, b"neither node is one of the net")
