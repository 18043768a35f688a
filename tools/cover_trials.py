"""Trials of desk/gdc-cover over examples/slices.v, a block of 20 nets with a driver and a sink and of 18 paths; it is no command.

The inputs of the block come to nine paths: that of the buffer cb0, and two of each of four gates g1. The registers, each with a rise and a
fall, stand behind a wire of resistors. With a hundred times the resistance of the example the wires of two of them have 29 ps and those of
two 17, by examples/README.md, behind a slew of 12. With rss the slews are 64.837 and 39.230, and each picosecond takes a register 0.2.
"""
import gzip
import json
import os
import re

from delay_trials import EXAMPLES, Tool, full_device, put

FILES = {key: os.path.join(EXAMPLES, name) for key, name in (("--netlist", "slices.v"), ("--spef", "slices.spef"), ("--lib", "slices.lib"))}
LIBRARIES = {f"--lib-{corner}": os.path.join(EXAMPLES, f"slices_{corner}.lib") for corner in ("min", "typ", "max")}
ALL_NETS = "nets 20: with parasitics 20, without 0"
OUTSIDE = "paths 18: 9 rest on look-ups outside the tables, 50.0%; edge and extend differ by at most 20.000 ps"
INSIDE = "paths 18: 0 rest on look-ups outside the tables, 0.0%"
CHANGED = "slews behind wires: none; with rss 8 of 36 delays of paths change, by at most 10.567 ps"


STRANGE_NETLIST = r"""module top (a, z); input a; output [3:2] z; wire \n.1 , \$x$ , \back\slash ;
INVX1 u0 (.A(a), .Y(\n.1 ));
INVX1 u1 (.A(\n.1 ), .Y(\$x$ ));
INVX1 u2 (.A(\$x$ ), .Y(\back\slash ));
INVX1 u3 (.A(\back\slash ), .Y(z[3]));
endmodule
"""
STRANGE_SPEF = r"""*SPEF "x" *DESIGN "top" *DIVIDER . *DELIMITER : *BUS_DELIMITER < > *C_UNIT 1 FF *R_UNIT 1 OHM
*NAME_MAP *1 n\.1 *2 z<3>
*D_NET *1 1 *CONN *CAP 1 u0:Y 1 *END
*D_NET \$x\$ 1 *CONN *CAP 1 u1:Y 1 *END
*D_NET *2 1 *END
*D_NET a 1 *END
"""


def example():
    with open(FILES["--spef"], encoding="ascii") as file:
        return file.read()


def without(*names):
    """The SPEF file of the example, in which the sections of these names are left out."""
    return re.sub(r"\*D_NET (\S+)[\s\S]*?\*END\n", lambda found: "" if found[1] in names else found[0], example())


def calc(**changes):
    """The words of a run: files and values by keys, of which some are changed, and those without a value left out."""
    own = {**FILES, "--top": "blk", "--input-slew": "20", "--port-load": "5"}
    own.update((f"--{name.replace('_', '-')}", value) for name, value in changes.items())
    return ["calc", *(word for pair in own.items() if pair[1] is not None for word in pair)]


def begins(what, tool, words, status, *lines):
    """The check that a run ends with this status, and that each of its first lines begins so."""
    found = tool.run(*words)
    own = found[1].split("\n")
    return what, found[0] == status and all(line.startswith(wanted) for line, wanted in zip(own, lines, strict=False)), *map(str, found)


def missing(program):
    """Nets that are left out of the SPEF file."""
    cover = Tool("gdc-cover", program)
    yield begins("a whole SPEF file", cover, calc(missing="zero"), 0, ALL_NETS, INSIDE)
    put("one.spef", without("s3/n2"))
    one = ("nets 20: with parasitics 19, without 1", "  without: s3/n2 driven by s3/g2/Z", INSIDE)
    yield begins("one net", cover, calc(missing="zero", spef="one.spef"), 0, *one)
    put("comment.spef", without("s3/n2") + "// *D_NET s3/n2 1 *END\n/* *D_NET s3/n2 1 *END */\n")
    yield begins("a section in a comment", cover, calc(missing="zero", spef="comment.spef"), 0, *one)
    # The clock has its name by the name map, and a bit of the input by a vector.
    put("three.spef", without("*1", "d[2]", "s0/n1"))
    found = cover.run(*calc(missing="zero", spef="three.spef"))
    lines = sorted(line for line in found[1].split("\n") if line.startswith("  without: "))
    wanted = ["  without: ckb driven by cb1/Z", "  without: d[2] driven by d[2]", "  without: s0/n1 driven by s0/g1/Z"]
    yield "three nets", lines == wanted and found[1].startswith("nets 20: with parasitics 17, without 3\n"), found[1]
    refused = "gdc-cover: the run is refused: gdc: E33 missing net s3/n2\n"
    yield cover.refuses("a run that is refused", 1, refused, *calc(spef="one.spef"))


def spellings(program):
    """Names that a netlist and a SPEF file write in ways of their own."""
    cover = Tool("gdc-cover", program)
    put("names.v", STRANGE_NETLIST)
    put("names.spef", STRANGE_SPEF)
    words = calc(netlist="names.v", top="top", lib=os.path.join(EXAMPLES, "inverter.lib"), missing="zero", outside="extend", spef=None)
    wanted = ("nets 5: with parasitics 4, without 1", r"  without: back\slash driven by u2/Y", "paths 4: ")
    yield begins("strange names", cover, [*words, "--spef", "names.spef"], 0, *wanted)
    put("names.spef", STRANGE_SPEF + "*D_NET back\\\\slash 1 *CONN *CAP 1 u2:Y 1 *END\n")
    yield begins("all strange names", cover, [*words, "--spef", "names.spef"], 0, "nets 5: with parasitics 5, without 0", "paths 4: ")


def long_wires():
    put("long.spef", example().replace("*R_UNIT 1 OHM", "*R_UNIT 0.1 KOHM"))
    return "long.spef"


def outside(program):
    """Look-ups outside the tables, and slews behind wires."""
    cover = Tool("gdc-cover", program)
    first = "  outside: path cb0 A Z rise only 53.000 73.000 +20.000"
    changed = ("  changed: path s2/r CK Q rise only 60.400 70.967 +10.567", "  changed: path s3/r CK Q rise only 60.400 70.967 +10.567",
               "  changed: path s0/r CK Q rise only 60.400 65.846 +5.446")
    words = calc(input_slew="300", outside="extend", spef=long_wires())
    yield begins("the worst of each", cover, ["--worst", "1", *words], 0, ALL_NETS, OUTSIDE, first, CHANGED, changed[0], "")
    gates = [f"  outside: path s{at}/g1 {pin} Z rise only 32.000 42.000 +10.000" for at in range(4) for pin in "AB"]
    yield begins("all, and the words behind those of the run", cover, [*words, "--worst", "99"], 0,
                 ALL_NETS, OUTSIDE, first, *gates, CHANGED, *changed)
    words = ["--worst", "0", *calc(input_slew="300", outside="edge", spef=long_wires())]
    yield begins("the other end", cover, words, 0, ALL_NETS, OUTSIDE, CHANGED)
    turned = CHANGED.replace("none; with rss", "rss; with none")
    words = ["--worst", "0", *calc(outside="extend", spef=long_wires(), wire_slew="rss")]
    yield begins("a run with rss", cover, words, 0, ALL_NETS, INSIDE, turned)
    corners = calc(input_slew="300", outside="edge", spef=os.path.join(EXAMPLES, "slices_corners.spef"), lib=None)
    words = [*corners, *(word for pair in LIBRARIES.items() for word in pair), "--worst", "1"]
    # The tables of the largest corner are those of the typical one times 5/4.
    largest = "  outside: path cb0 A Z rise max 66.250 91.250 +25.000"
    yield begins("three corners", cover, words, 0, ALL_NETS, OUTSIDE.replace("20.000", "25.000"), largest)


def limits(program):
    """Limits that are kept, and passed."""
    cover = Tool("gdc-cover", program)
    put("one.spef", without("s3/n2"))
    words = calc(input_slew="300", outside="extend", missing="zero", spef="one.spef")
    nets = "gdc-cover: nets without parasitics: 1, and the limit is 0\n"
    paths = "gdc-cover: paths outside the tables: 50%, and the limit is 49.9%\n"
    cases = [
        (["--most-missing", "1", "--most-outside", "50%"], 0, ""),
        (["--most-missing", "0"], 1, nets),
        (["--most-outside", "49.9%"], 1, paths),
        (["--most-missing", "0", "--most-outside", "49.9"], 1, nets + paths),
        (["--most-outside", "0.5e2"], 0, ""),
    ]
    for asked, status, said in cases:
        found = cover.run(*words, *asked)
        yield f"the limits {asked}", (found[0], found[2]) == (status, said) and found[1].startswith("nets 20: with"), *map(str, found)
    # A load of a nanofarad is past the tables, and the pin's capacitance takes it past what --outside extend goes on to.
    words = calc(port_load="1000000", outside="edge")
    unknown = "paths outside the tables: not known, as a run with one of edge and extend is refused: gdc: E43 past time s0/r CK Q rise"
    yield begins("a look-up that cannot be extended", cover, words, 0, ALL_NETS, unknown, "slews behind wires: none; with rss 8 of 36")
    status, _, said = cover.run(*words, "--most-outside", "100%")
    line = "gdc-cover: paths outside the tables: not known, and there is a limit\n"
    yield "a limit where nothing is known", (status, said) == (1, line), said


def objects(program):
    """The same as JSON, which has all paths."""
    cover = Tool("gdc-cover", program)
    put("one.spef", without("s3/n2").replace("*R_UNIT 1 OHM", "*R_UNIT 0.1 KOHM"))
    words = calc(input_slew="300", outside="extend", missing="zero", spef="one.spef")
    status, text, said = cover.run("--format", "json", "--worst", "0", *words)
    found = json.loads(text)
    yield "the nets", (status, said, found["nets"], found["without"]) == (0, "", 20, [{"net": "s3/n2", "driver": "s3/g2/Z"}]), text
    counts = {name: found["outside"][name] for name in ("paths", "percent", "delays")}
    yield "the counts", counts == {"paths": 18, "percent": 50.0, "delays": 36} and len(found["outside"]["changed_paths"]) == 9, text
    path = {"instance": "cb0", "from": "A", "to": "Z", "edge": "rise", "corner": "only", "delays": {"edge": 53.0, "extend": 73.0}}
    yield "the first path", found["outside"]["changed_paths"][0] == path, text
    slews = found["wire_slew"]
    yield "the slews", (slews["own"], slews["changed_delays"]) == ("none", 8), text
    yield "the delays with both slews", slews["changed_paths"][0]["delays"] == {"none": 60.4, "rss": 70.967}, text


def bad_inputs(program):
    cover = Tool("gdc-cover", program)
    packed = {name: f"{name}.gz" for name in ("netlist", "spef", "lib")}
    for name, path in packed.items():
        with open(FILES[f"--{name}"], "rb") as file:
            put(path, gzip.compress(file.read()))
    yield begins("packed files", cover, calc(missing="zero", **packed), 0, ALL_NETS, INSIDE)
    put("cut.gz", gzip.compress(b"*SPEF" * 99)[:-9])
    yield cover.refuses("a packed file that is cut", 3, "gdc-cover: cut.gz: what gzip packed is not whole", *calc(spef="cut.gz"))
    yield cover.refuses("no file", 3, "gdc-cover: none.v: No such file", *calc(netlist="none.v"))
    unknown = "gdc-cover: the program ends with status 2: gdc: usage at word 14: unknown word"
    yield cover.refuses("a word that gdc does not know", 2, unknown, *calc(), "--frob", "1")
    put("broken.spef", "SPEF")
    yield cover.refuses("a broken file", 1, "gdc-cover: the run is refused: gdc: E04 spef syntax token 1", *calc(spef="broken.spef"))
    yield cover.faults("another command", "the first word that is no option has to be calc", "wires", "--spef", "x")
    yield cover.faults("no command", "the first word that is no option has to be calc")
    yield cover.faults("a share that is no number", "much is no decimal number from 0", "--most-outside", "much", *calc())
    yield cover.faults("a negative limit", "-1 is no whole number from 0", "--most-missing=-1", *calc())
    yield full_device(cover, *calc())
    status, text, said = cover.run("--help")
    yield "help", (status, said) == (0, "") and text.startswith("usage: gdc-cover") and "--most-missing N" in text and "P%" in text


TRIALS = (missing, spellings, outside, limits, objects, bad_inputs)
