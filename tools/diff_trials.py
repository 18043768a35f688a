"""Trials of desk/gdc-diff; it is no command."""
import gzip
import os

from delay_trials import EXAMPLES, Tool, full_device, put, put_sdf

BASE = "(INTERCONNECT a u/A (10)) (INTERCONNECT u/Z z (1.5) (2.5))"
CELL = ("u", "(IOPATH A Z (20) (30)) (IOPATH B Z (20) ())")
SAME = ("wires: 2 agree, 0 differ, 0 only in A, 0 only in B; largest difference 0.000 ps",
        "paths: 2 agree, 0 differ, 0 only in A, 0 only in B; largest difference 0.000 ps")


def values(program):
    """Differences of single values, within a tolerance and past it."""
    diff = Tool("gdc-diff", program)
    put_sdf("a.sdf", BASE, CELL)
    yield diff.says("a file and itself", (0, *SAME), "a.sdf", "a.sdf")
    turned = ("u", "(IOPATH B Z (20) ()) (IOPATH A Z (20.5) (29))")
    put_sdf("b.sdf", "(INTERCONNECT u/Z z (1.5) (2.5)) (INTERCONNECT a u/A (10.002) (9.999))", turned)
    near = "wires: 2 agree, 0 differ, 0 only in A, 0 only in B; largest difference 0.002 ps"
    yield diff.says("wires within the tolerance", (0, near), "a.sdf", "b.sdf", "--wires", "--tolerance", "0.002")
    past = ("wire a u/A rise only 10.000 10.002 +0.002", near.replace("2 agree, 0 differ", "1 agree, 1 differ"))
    yield diff.says("wires past the tolerance", (1, *past), "a.sdf", "b.sdf", "--wires", "--tolerance", "0.0019999")
    paths = ("path u A Z fall only 30.000 29.000 -1.000",
             "paths: 1 agree, 1 differ, 0 only in A, 0 only in B; largest difference 1.000 ps")
    yield diff.says("paths that differ", (1, *paths), "a.sdf", "b.sdf", "--paths", "--tolerance", "999e-3")
    yield diff.says("both kinds apart", (1, *past, *paths), "a.sdf", "b.sdf")
    within = paths[1].replace("1 agree, 1", "2 agree, 0")
    yield diff.says("a tolerance for both kinds", (0, near, within), "a.sdf", "b.sdf", "--tolerance", "1")


def order(program):
    """The largest difference comes first, and before it what has none."""
    diff = Tool("gdc-diff", program)
    put_sdf("a.sdf", "", ("u", "(IOPATH A Z (1) (1)) (IOPATH B Z (1) (1)) (IOPATH C Z (1) (1)) (IOPATH D Z (1) ())"))
    put_sdf("b.sdf", "", ("u", "(IOPATH A Z (1.1) (1)) (IOPATH B Z (1) (3)) (IOPATH C Z (0.5) (1.4)) (IOPATH D Z (1) (2))"))
    lines = ["path u D Z fall only - 2.000 -", "path u B Z fall only 1.000 3.000 +2.000", "path u C Z rise only 1.000 0.500 -0.500",
             "path u A Z rise only 1.000 1.100 +0.100", "paths: 0 agree, 4 differ, 0 only in A, 0 only in B; largest difference 2.000 ps"]
    yield diff.says("the largest first", (1, *lines), "a.sdf", "b.sdf", "--paths")
    yield diff.says("the worst two", (1, *lines[:2], lines[-1]), "a.sdf", "b.sdf", "--paths", "--worst", "2")
    yield diff.says("a delay that one lacks, past any tolerance", (1, lines[0], lines[-1].replace("0 agree, 4", "3 agree, 1")),
                    "a.sdf", "b.sdf", "--paths", "--tolerance", "1e6")


def factors(program):
    """10 * 0.693147 is 6.93147, and half of 1 and of 3 femtoseconds is 1 and 2, half up."""
    diff = Tool("gdc-diff", program)
    put_sdf("a.sdf", "(INTERCONNECT a u/A (10)) (INTERCONNECT a v/A (0.001)) (INTERCONNECT a w/A (0.003))", CELL)
    put_sdf("b.sdf", "(INTERCONNECT a u/A (6.931)) (INTERCONNECT a v/A (0.001)) (INTERCONNECT a w/A (0.002))", CELL)
    yield diff.says("ln 2", (1, "wire a u/A rise only 6.931 6.932 +0.001",
                             "wires: 0 agree, 1 differ, 0 only in A, 0 only in B; largest difference 0.001 ps"),
                    *ln_two_files(), "--wires", "--factor", "0.693147")
    found = diff.run("a.sdf", "b.sdf", "--wires", "--factor", "0.5")
    is_well = found[0] == 1 and found[1].startswith("wire a u/A rise only 5.000 6.931 +1.931\nwires: 2 agree, 1 differ,")
    yield "half up", is_well, *map(str, found)


def ln_two_files():
    put_sdf("ten.sdf", "(INTERCONNECT a u/A (10))")
    put_sdf("ln.sdf", "(INTERCONNECT a u/A (6.932))")
    return "ten.sdf", "ln.sdf"


def rows(program):
    """Rows that one file has alone, names that stand twice, and names with a blank."""
    diff = Tool("gdc-diff", program)
    put_sdf("a.sdf", "(INTERCONNECT a u/A (1)) (INTERCONNECT a u/A (2)) (INTERCONNECT a\\ b u/A (3))")
    put_sdf("b.sdf", "(INTERCONNECT a u/A (1)) (INTERCONNECT a u/A (4)) (INTERCONNECT a u/A (5)) (INTERCONNECT a\\  u/B (3))")
    lines = ("wire a u/A rise only 2.000 4.000 +2.000", "only in A: wire a\\ b u/A", "only in B: wire a u/A", "only in B: wire a\\  u/B",
             "wires: 1 agree, 1 differ, 1 only in A, 2 only in B; largest difference 2.000 ps")
    yield diff.says("rows of one file alone", (1, *lines), "a.sdf", "b.sdf", "--wires")
    put_sdf("c.sdf", "(INTERCONNECT a u/A (1)) (INTERCONNECT a u/A (2))")
    lines = ("only in A: wire a\\ b u/A", "wires: 2 agree, 0 differ, 1 only in A, 0 only in B; largest difference 0.000 ps")
    yield diff.says("one row more is a difference", (1, *lines), "a.sdf", "c.sdf", "--wires", "--tolerance", "9")


def corners(program):
    """Triples, members that are left out, and one value beside three."""
    diff = Tool("gdc-diff", program)
    put_sdf("one.sdf", "(INTERCONNECT a u/A (2))")
    put_sdf("outer.sdf", "(INTERCONNECT a u/A (2::2))")
    put_sdf("three.sdf", "(INTERCONNECT a u/A (1:2:4))")
    agree = "wires: 1 agree, 0 differ, 0 only in A, 0 only in B; largest difference 0.000 ps"
    yield diff.says("a member that is left out", (0, agree), "one.sdf", "outer.sdf", "--wires")
    differ = "wires: 0 agree, 1 differ, 0 only in A, 0 only in B; largest difference 2.000 ps"
    yield diff.says("one value beside three", (1, "wire a u/A rise max 2.000 4.000 +2.000", differ), "outer.sdf", "three.sdf", "--wires")
    # By hand, from the resistors of examples/README.md: at max the wire has 235 fs, at typ 170.
    found = diff.run(os.path.join(EXAMPLES, "slices.sdf"), os.path.join(EXAMPLES, "slices_corners.sdf"), "--wires")
    yield "an example at one corner and at three", found[0] == 1 and "\nwire cb1/Z s0/r/CK rise max 0.170 0.235 +0.065\n" in found[1]


def bad_inputs(program):
    diff = Tool("gdc-diff", program)
    put_sdf("a.sdf", BASE, CELL)
    put("broken.sdf", "(DELAYFILE)\n x")
    put("packed.sdf", gzip.compress(open("a.sdf", "rb").read()))
    put("cut.sdf", gzip.compress(b"(DELAYFILE)" * 99)[:-9])
    yield diff.says("a packed file", (0, *SAME), "a.sdf", "packed.sdf")
    yield diff.refuses("what is no SDF", 3, "broken.sdf:2:2: gdc: E62 sdf syntax token 4\n", "a.sdf", "broken.sdf")
    yield diff.refuses("no file", 3, "gdc-diff: none.sdf: No such file", "none.sdf", "a.sdf")
    yield diff.refuses("a folder", 3, "gdc-diff: .: Is a directory", ".", "a.sdf")
    yield diff.refuses("a packed file that is cut", 3, "gdc-diff: cut.sdf: what gzip packed is not whole", "a.sdf", "cut.sdf")
    yield diff.refuses("no program", 2, "gdc-diff: there is no program at none", "a.sdf", "a.sdf", "--program", "none")
    yield diff.faults("a negative tolerance", "-1 is no decimal number from 0", "a.sdf", "a.sdf", "--tolerance=-1")
    yield diff.faults("a factor that is no number", "nan is no decimal number from 0", "a.sdf", "a.sdf", "--factor", "nan")
    yield diff.faults("a half row", "0.5 is no whole number from 0", "a.sdf", "a.sdf", "--worst", "0.5")
    yield diff.faults("one file", "the following arguments are required: B", "a.sdf")
    yield full_device(diff, "a.sdf", "a.sdf")
    status, text, said = diff.run("--help")
    yield "help", (status, said) == (0, "") and text.startswith("usage: gdc-diff") and "--tolerance PS" in text


TRIALS = (values, order, factors, rows, corners, bad_inputs)
