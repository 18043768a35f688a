"""What the program itself says of a design: the pins of its nets."""
import itertools
import re

from libraries import Library
from net_trees import Pins
from program import CannotRun

def plain_text(name):
    """The text of a name that is spelled in SDF."""
    return re.sub(rb"\\(.)", rb"\1", name, flags=re.S)


def node_of(name):
    """The node of an end in SDF: the pin stands behind the last `/` that no backslash takes."""
    at = -1
    for found in re.finditer(rb"\\.|/", name, re.S):
        at = found.start() if found.group() == b"/" else at
    return (plain_text(name), None) if at < 0 else (plain_text(name[:at]), plain_text(name[at + 1 :]))


def driven_nets(listed):
    """Of each net that `flat` lists with a driver and a sink its name, its driver and the count of its sinks."""
    for line in listed.split(b"\n"):
        if line.startswith(b"net "):
            _, net, driver, count = line.split(b" ")
            if driver != b"-" and count != b"0":
                yield net, driver, int(count)


class Design:
    """The nets of a design that have a driver and a sink, by their names, and the net of each of their pins."""

    def __init__(self, listed, wires):
        self.nets, self.net_of = {}, {}
        rows = (line for line in wires.split(b"\n") if line.startswith(b"(INTERCONNECT "))
        for net, _, count in driven_nets(listed):
            ends = [row.split(b" ")[1:3] for row in itertools.islice(rows, count)]
            pins = Pins(len(self.nets), node_of(ends[0][0]), [node_of(sink) for _, sink in ends])
            self.nets[net] = pins
            self.net_of.update(dict.fromkeys((pins.driver, *pins.sinks), net))


def without_arcs(data):
    """A library without its `timing` groups: a design over it has the same pins, and no loop."""
    pins = (pin for _, cell in Library(data).cells for pin in cell.groups(b"pin"))
    kept, at = [], 0
    for group in (group for pin in pins for group in pin.groups(b"timing")):
        kept.append(data[at : group.start])
        at = group.closed + 1
    return b"".join(kept) + data[at:]


def design_of(program, netlist, top, library):
    """The design, or None where netlist or library are refused. It asks for the wires over a file without parasitics."""
    words = ["--netlist", program.file(netlist), "--top", top]
    flat, refused = program.run("flat", *words, "--lib", program.file(library))
    if refused:
        return None
    words = ["calc", *words, "--spef", program.write(b'*SPEF "none"\n'), "--input-slew", "0", "--missing", "zero", "--outside", "edge"]
    wires, refused = program.run(*words, "--lib", program.file(library))
    if refused:
        # What is left at this point are loops of arcs.
        wires, refused = program.run(*words, "--lib", program.write(without_arcs(program.read(library))))
    if refused:
        raise CannotRun(f"the program gives no wires of the design: {refused.decode(errors='replace')}")
    return Design(flat, wires)
