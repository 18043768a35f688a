"""Judges whether the resistors of a net make a tree on its pins, and names each fault at its place."""
from typing import NamedTuple

from node_names import shown
from parasitics import NETS

NET_LIMIT = 2**19
# Of one net the program asks in this order.
STRANGE_PIN = NO_DRIVER = SEVERAL_DRIVERS = 0
LIMIT, UNREACHED, MESH = 1, 2, 3


class Pins(NamedTuple):
    """The pins of a net, by the netlist or by the section alone, and its place in the order in which nets are asked."""

    order: int
    driver: tuple
    sinks: list


class Pieces:
    """The pieces into which resistors join nodes, and the resistors that close a loop, in the order of the file."""

    def __init__(self, resistors):
        self.above = {}
        self.closing = []
        for at, first, second in resistors:
            one, other = self.piece(first), self.piece(second)
            if one == other:
                self.closing.append(at)
            else:
                self.above[other] = one

    def piece(self, node):
        """The node that stands for all of its piece."""
        above = self.above
        parent = above.setdefault(node, node)
        while parent != node:
            above[node] = node = above[parent]
            parent = above[node]
        return node


class Judgement:
    """What is wrong with a net: strange pins, nodes that the driver does not reach, and resistors that close a loop.

    `unreached` has the nodes of each such piece. `lost` has the pieces that have strange pins and no other: they go with these.
    """

    def __init__(self, elements, pins):
        self.elements, self.pins = elements, pins
        self.pieces = Pieces(elements.resistors)
        self.closing = self.pieces.closing
        self.strange, self.lost, self.unreached = [], set(), {}
        if pins is None:
            return
        known = {pins.driver, *pins.sinks}
        self.strange = [node for node in elements.listed if node not in known]
        # Where an entry has an unknown node none can be called unreached.
        if elements.resistors and elements.whole:
            self.search(known)

    def search(self, known):
        piece = self.pieces.piece
        reached = piece(self.pins.driver)
        self.lost = {piece(node) for node in self.strange} - {piece(node) for node in known}
        for node in {**dict.fromkeys([self.pins.driver, *self.pins.sinks]), **self.elements.nodes()}:
            root = piece(node)
            if root != reached and root not in self.lost:
                self.unreached.setdefault(root, []).append(node)


class NetFaults:
    """Adds the faults of the nets to those of the file. The pins are those of the design, or of the sections where it is alone.

    Where there is a netlist that gives no design, loops alone are looked for.
    """

    def __init__(self, file, design, alone):
        self.file, self.design, self.alone = file, design, alone
        self.count = 0

    def judge(self, elements):
        """The judgement of a section's net, or None where no run asks for its tree."""
        self.count += 1
        pins = None
        if self.alone:
            pins = self.pins_of(elements)
        elif self.design is not None:
            pins = self.design.nets.get(elements.net)
            if pins is None:
                return None
        judgement = Judgement(elements, pins)
        order = self.count if pins is None else pins.order
        if pins is not None:
            self.add_strange(judgement, order)
            self.add_limit(judgement, order)
            self.add_unreached(judgement, order)
        self.add_loops(judgement, order)
        return judgement

    def pins_of(self, elements):
        """The pins that a section says by itself, where it has one driver. Else that is a fault."""
        drivers = elements.drivers()
        if len(drivers) == 1:
            return Pins(self.count, drivers[0], [node for node in elements.listed if node != drivers[0]])
        if not drivers and elements.whole:
            self.add(elements, 1, (self.count, NO_DRIVER), b"E60 no driver " + elements.net)
        elif drivers:
            detail = b"driven by " + b" and ".join(map(shown, drivers))
            self.add(elements, 1, (self.count, SEVERAL_DRIVERS), b"E61 several drivers " + elements.net, detail)
        return None

    def add(self, elements, at, order, words, detail=b""):
        self.file.add((NETS, *order), elements.part.tokens[at].start, words, detail)

    def add_strange(self, judgement, order):
        elements = judgement.elements
        for node in judgement.strange:
            net = self.design.net_of.get(node)
            detail = b"no pin of the design" if net is None else b"it is a pin of the net " + net
            words = b"E34 strange pin %s %s" % (elements.net, shown(node))
            self.add(elements, elements.listed[node][2], (order, STRANGE_PIN), words, detail)

    def add_limit(self, judgement, order):
        elements, section = judgement.elements, judgement.elements.section
        counted = len(section.capacitances) + 1 + len(judgement.pins.sinks)
        if max(len(section.resistors), counted) > NET_LIMIT:
            detail = b"%d resistors, %d capacitances and pins" % (len(section.resistors), counted)
            self.add(elements, 1, (order, LIMIT), b"E50 limit net " + elements.net, detail)

    def add_unreached(self, judgement, order):
        elements = judgement.elements
        for number, nodes in enumerate(judgement.unreached.values()):
            words = b"E35 unreached node %s %s" % (elements.net, shown(nodes[0]))
            detail = b"no resistors lead here from " + shown(judgement.pins.driver)
            if len(nodes) > 1:
                detail += b", nor to %d more nodes behind it" % (len(nodes) - 1)
            self.add(elements, elements.place_of(nodes[0]), (order, UNREACHED, number), words, detail)

    def add_loops(self, judgement, order):
        elements = judgement.elements
        for at in judgement.closing:
            detail = b"the resistor %s closes a loop" % b" ".join(elements.part.words[at : at + 4])
            self.add(elements, at, (order, MESH), b"E36 mesh " + elements.net, detail)
