"""Trials of desk/gdc-report; it is no command."""
import csv
import io
import json
import os
import subprocess
import sys
import xml.etree.ElementTree

from delay_trials import EXAMPLES, Tool, full_device, put, put_sdf

import delay_picture

# Three wires with the delays 10, 1.5, 2.5 and 0, and two paths with 20, 30 and -1.
WIRES = "(INTERCONNECT a u/A (10)) (INTERCONNECT u/Z z (1.5) (2.5)) (INTERCONNECT b u/B (0) (0))"
CELL = ("u", "(IOPATH A Z (20) (30)) (IOPATH B Z (-1) ())")
TEXT = """small.sdf: delays in picoseconds

wires         only
  rows           3
  delays         4
  without        0
  zero           1
  negative       0
  sum       14.000
  least      0.000
  50%        1.500
  90%       10.000
  99%       10.000
  largest   10.000
worst wires
  10.000 rise a u/A
   2.500 fall u/Z z

paths         only
  rows           2
  delays         3
  without        1
  zero           0
  negative       1
  sum       49.000
  least     -1.000
  50%       20.000
  90%       30.000
  99%       30.000
  largest   30.000
worst paths
  30.000 fall u A Z
  -1.000 rise u B Z"""
# The grounds on which a picture is looked at: white, and the dark ground of a page.
GROUNDS = ("#ffffff", "#0d1117")


def put_small():
    put_sdf("small.sdf", WIRES, CELL)


def formats(program):
    """The same values, worked by hand, in three formats."""
    report = Tool("gdc-report", program)
    put_small()
    yield report.says("the text", (0, *TEXT.split("\n")), "small.sdf", "--worst", "2")
    status, text, said = report.run("small.sdf", "--worst", "2", "--format", "csv")
    rows = list(csv.reader(io.StringIO(text)))
    yield "the head of CSV", (status, said, rows[0]) == (0, "", ["kind", "corner", "quantity", "value", "edge", "name"])
    wanted = [["wire", "only", "sum", "14.000", "", ""], ["wire", "only", "worst 2", "2.500", "fall", "u/Z z"],
              ["path", "only", "without", "1", "", ""], ["path", "only", "50%", "20.000", "", ""]]
    yield "the rows of CSV", len(rows) == 27 and all(row in rows for row in wanted), text
    status, text, said = report.run("small.sdf", "--worst", "1", "--format", "json")
    found = json.loads(text)
    yield "the head of JSON", (status, said, found["unit"], found["corners"]) == (0, "", "ps", ["only"])
    worst = [{"instance": "u", "from": "A", "to": "Z", "edge": "fall", "delay": 30.0}]
    paths = {"rows": 2, "delays": 3, "without": 1, "zero": 0, "negative": 1, "sum": 49.0, "least": -1.0,
             "50%": 20.0, "90%": 30.0, "99%": 30.0, "largest": 30.0, "worst": worst}
    yield "the paths of JSON", found["paths"] == {"only": paths}, text


def figures(report, *words):
    """The report as JSON."""
    return json.loads(report.run(*words, "--format", "json")[1])


def quantities(program):
    """Quantiles of a hundred delays, delays at three corners, and none."""
    report = Tool("gdc-report", program)
    put_sdf("hundred.sdf", "".join(f"(INTERCONNECT a u{at}/A ({at}))" for at in range(100, 0, -1)))
    found = figures(report, "hundred.sdf", "--worst", "0")["wires"]["only"]
    wanted = {"sum": 5050.0, "least": 1.0, "50%": 50.0, "90%": 90.0, "99%": 99.0, "largest": 100.0}
    yield "the quantiles of 1 to 100", {title: found[title] for title in wanted} == wanted and found["worst"] == [], str(found)
    put_sdf("equal.sdf", "(INTERCONNECT a u/A (5) (5))", ("u", "(IOPATH A Z (7) (7))"))
    found = figures(report, "equal.sdf")
    counts = [(found[kind]["only"]["delays"], found[kind]["only"]["sum"]) for kind in ("wires", "paths")]
    yield "an equal rise and fall count once of a wire and twice of a path", counts == [(1, 5.0), (2, 14.0)], str(found)
    put_sdf("three.sdf", "(INTERCONNECT a u/A (1:2:4)) (INTERCONNECT a v/A (3::1)) (INTERCONNECT a w/A (2))")
    found = figures(report, "three.sdf")["wires"]
    sums = {corner: (found[corner]["delays"], found[corner]["without"], found[corner]["sum"]) for corner in ("min", "typ", "max")}
    yield "three corners", sums == {"min": (3, 0, 6.0), "typ": (2, 1, 4.0), "max": (3, 0, 7.0)}, str(sums)
    worst = [one["to"] for corner in ("min", "typ", "max") for one in found[corner]["worst"][:1]]
    yield "the worst of each corner", worst == ["v/A", "u/A", "u/A"], str(found)
    put("none.sdf", "(DELAYFILE)")
    found = figures(report, "none.sdf")["paths"]["only"]
    yield "no delays", (found["rows"], found["sum"], found["50%"], found["worst"]) == (0, 0.0, None, []), str(found)
    # The program has proved the sum of the typical members of this example.
    found = figures(report, os.path.join(EXAMPLES, "slices_corners.sdf"))
    yield "the sum of an example", round(found["wires"]["typ"]["sum"] + found["paths"]["typ"]["sum"], 3) == 872.72, str(found)


def light(colour):
    """The relative luminance of a colour, by the Web Content Accessibility Guidelines."""
    parts = [int(colour[at : at + 2], 16) / 255 for at in (1, 3, 5)]
    red, green, blue = (part / 12.92 if part <= 0.04045 else ((part + 0.055) / 1.055) ** 2.4 for part in parts)
    return 0.2126 * red + 0.7152 * green + 0.0722 * blue


def contrast(one, other):
    darker, lighter = sorted((light(one), light(other)))
    return (lighter + 0.05) / (darker + 0.05)


def colours(program):
    """Those guidelines ask for a contrast of 3 of marks and large letters. Letters have more here."""
    yield "a contrast by hand: black on white", abs(contrast("#000000", "#ffffff") - 21) < 1e-9
    for ground in GROUNDS:
        for corner, colour in delay_picture.COLOURS.items():
            yield f"{corner} on {ground}: {contrast(colour, ground):.2f}", contrast(colour, ground) >= 3
        yield f"letters on {ground}: {contrast(delay_picture.TEXT, ground):.2f}", contrast(delay_picture.TEXT, ground) >= 4


def pictures(program):
    """A picture where matplotlib is installed, and else the line that says how to get it."""
    report = Tool("gdc-report", program)
    put_small()
    status, text, said = report.run("small.sdf", "--worst", "2", "--picture", "one.svg")
    if status == 4:
        yield from without_matplotlib(report, text, said, "one.svg")
        return
    yield "a picture beside the text", (status, text.rstrip("\n"), said) == (0, TEXT, ""), said
    found = "".join(xml.etree.ElementTree.parse("one.svg").getroot().itertext())
    axes = ("3 wires", "2 paths through cells", "delay in ps", "number of delays", "delays up to here in %")
    wanted = ("Delays of small.sdf", *axes, "a u/A: 10.000 ps", "u A Z: 30.000 ps")
    yield "what an SVG says", [part for part in wanted if part not in found] == [], found
    report.run("small.sdf", "--worst", "2", "--picture", "two.svg")
    with open("one.svg", "rb") as one, open("two.svg", "rb") as two:
        yield "the same picture again", one.read() == two.read()
    report.run("small.sdf", "--picture", "one.png")
    with open("one.png", "rb") as file:
        yield "a PNG", file.read(8) == b"\x89PNG\r\n\x1a\n"
    put("none.sdf", "(DELAYFILE)")
    for name, words in (("none.sdf", []), ("small.sdf", ["--worst", "0"])):
        found = report.run(name, *words, "--picture", "some.svg")
        yield f"a picture of {name} {words}", found[0] == 0 and found[2] == "", found[2]
    put_sdf("$a$.sdf", "(INTERCONNECT $a_$b^ \\\xe9\\\n (1))")
    found = report.run("$a$.sdf", "--picture", "some.svg")
    drawn = "".join(xml.etree.ElementTree.parse("some.svg").getroot().itertext())
    is_drawn = "Delays of $a$.sdf" in drawn and "\\$a_\\$b\\^ \\\ufffd\\?: 1.000 ps" in drawn
    yield "a picture of strange names", (found[0], found[2]) == (0, "") and is_drawn, drawn, found[2]
    found = report.run("small.sdf", "--picture", "none/x.svg")
    yield "a picture in no folder", (found[0], found[2]) == (4, "gdc-report: none/x.svg: No such file or directory\n"), found[2]


def without_matplotlib(report, text, said, path):
    one_line = said.startswith("gdc-report: no picture: ") and "python3-matplotlib" in said and said.count("\n") == 1
    yield "the line where matplotlib is missing", one_line and text.rstrip("\n") == TEXT and not os.path.exists(path), text, said


def hidden(program):
    """All but the picture works where no interpreter has matplotlib: here a module of this name stands before it, and fails."""
    report = Tool("gdc-report", program)
    put_small()
    os.mkdir("hidden")
    put("hidden/matplotlib.py", "raise ImportError\n")
    report.environment["PYTHONPATH"] = os.path.abspath("hidden")
    ended = subprocess.run([sys.executable, "-c", "import matplotlib"], env=report.environment, capture_output=True, check=False)
    yield "matplotlib is hidden", ended.returncode == 1 and b"ImportError" in ended.stderr
    yield report.says("the text without matplotlib", (0, *TEXT.split("\n")), "small.sdf", "--worst", "2")
    status, text, said = report.run("small.sdf", "--worst", "2", "--picture", "small.svg")
    yield "the status without matplotlib", status == 4
    yield from without_matplotlib(report, text, said, "small.svg")


def bad_inputs(program):
    report = Tool("gdc-report", program)
    put_small()
    put("broken.sdf", "(DELAYFILE\n(CELL)")
    yield report.refuses("what is no SDF", 3, "broken.sdf:2:6: gdc: E62 sdf syntax token 5\n", "broken.sdf")
    yield report.refuses("no file", 3, "gdc-report: none.sdf: No such file", "none.sdf")
    yield report.faults("a picture of another kind", "small.pdf does not end in .svg or .png", "small.sdf", "--picture", "small.pdf")
    yield report.faults("a format that there is not", "(choose from 'text', 'csv', 'json')", "small.sdf", "--format", "xml")
    yield report.faults("a negative count", "-1 is no whole number from 0", "small.sdf", "--worst=-1")
    yield report.faults("two files", "unrecognized arguments: small.sdf", "small.sdf", "small.sdf")
    yield full_device(report, "small.sdf")
    status, text, said = report.run("--help")
    yield "help", (status, said) == (0, "") and text.startswith("usage: gdc-report") and "--picture FILE" in text


TRIALS = (formats, quantities, colours, pictures, hidden, bad_inputs)
