"""Single rows of tools/check_lint: files that are written by hand, and what desk/gdc-lint must answer. It is no command."""
import contextlib
import gzip
import io
import os
import re

import files
import where_cases

HEAD = b'*SPEF "x" *DESIGN "top"\n*C_UNIT 1 FF\n*R_UNIT 1 OHM\n'
CHAIN = where_cases.CHAIN.encode()
RING = b"""module top (a, z);
  input a;
  output z;
  NAND2 u1 (.A(a), .B(q), .Z(z));
  INV u2 (.A(z), .Z(q));
endmodule
"""
NAMES = b"""module sub (i, o, o);
  input i;
  output o;
  OR2 g (.A(i), .A(i), .Z(o));
endmodule
module top (a, z);
  input a, b;
  output z;
  NOR2 u1 (.A(a), .Z(n));
  sub u1 (.i(n), .o(z));
endmodule
"""
NETS = b"*D_NET a 1 *CAP 1 a 1 *END\n*D_NET n 1 *CAP 1 u1:Z 1 *END\n*D_NET z 1 *CAP 1 u2:Z 1 *END\n"

# What is tried, the netlist, the SPEF file, more words, and the lines without the file's name.
LISTS = [
    ("a clean file", CHAIN, HEAD + NETS, [], ["3 sections; the median wire has 1 fF", "no fault"]),
    ("loops of arcs beside a strange pin", RING, HEAD + b"*D_NET a 1 *CONN *I x:A I *CAP 1 a 100 *END", [], [
        "4:21: E34 strange pin a x:A: no pin of the design",
        "4:44: E33 missing net z: driven by u1:Z [gdc stops here]",
        "4:44: E33 missing net q: driven by u2:Z",
        "1 section; the median wire has 100 fF",
        "3 faults: E33 2, E34 1",
    ]),
    ("loops of arcs alone", RING, HEAD + b"*D_NET a 1 *END *D_NET q 1 *END *D_NET z 1 *END", [], [
        "4:28: E40 loop z q [gdc stops here]",
        "3 sections",
        "1 fault: E40 1",
    ]),
    ("nets without sections that are no fault, and a unit that is not likely", CHAIN,
        HEAD.replace(b"FF", b"PF") + b"*D_NET n 1 *CAP 1 n:1 5 *END", ["--missing", "zero"], [
        "2:9: warning: the median wire has 5000 fF: is *C_UNIT right?",
        "1 section; the median wire has 5000 fF",
        "no fault",
    ]),
    ("names and cells of a netlist", NAMES, HEAD + b"*D_NET n 1 *RES 1 n n 1 *END", [], [
        "1:19: E06 repeated name o [gdc stops here]",
        "4:3: E11 unknown cell OR2 only",
        "4:18: E06 repeated name A",
        "7:12: E08 port direction b",
        "9:3: E11 unknown cell NOR2 only",
        "10:7: E06 repeated name u1",
        "4:17: E36 mesh n: the resistor 1 n n 1 closes a loop",
        "1 section; the median wire has 1 ohm",
        "7 faults: E06 3, E08 1, E11 2, E36 1",
    ]),
    ("a token of a netlist", CHAIN.replace(b"wire n", b"assign n = a"), HEAD + NETS, [], [
        "4:3: E02 not structural assign token 15: here stands assign [gdc stops here]",
        "3 sections; the median wire has 1 fF",
        "1 fault: E02 1",
    ]),
    ("a pin of another net, and a section of none", CHAIN, HEAD + NETS + b"*D_NET VDD 1 *END *D_NET n 1 *CONN *I u1:A I *END", [], [
        "7:26: E32 repeated net n: the first section is on line 5 [gdc stops here]",
        "7:39: E34 strange pin n u1:A: it is a pin of the net a",
        "5 sections, 1 of nets without a driver and a sink in the netlist; the median wire has 1 fF",
        "2 faults: E32 1, E34 1",
    ]),
]


class Rows:
    def __init__(self, checks, library):
        self.checks = checks
        self.library = checks.write("cells.lib", library)
        self.spef = checks.write("row.spef", HEAD + NETS)
        self.design = ["--netlist", checks.write("row.v", CHAIN), "--top", "top", "--lib", self.library]
        self.out = checks.path("row.out")

    def run(self):
        for row in LISTS:
            self.check_list(*row)
        self.check_libraries()
        self.check_packed()
        self.check_loads()
        self.check_kept()
        self.check_words()

    def lint(self, *words):
        """Faults of the words end a command."""
        try:
            with contextlib.redirect_stderr(io.StringIO()):
                return self.checks.lint(*words)
        except SystemExit as end:
            return end.code, b"", b""

    def lines(self, answer):
        """The lines of an answer without the names of files."""
        return [re.sub(r"\A/[^:]*: ?", "", line) for line in answer[1].decode().split("\n")[:-1]]

    def check_list(self, what, netlist, spef, more, wanted):
        words = ["--netlist", self.checks.write("row.v", netlist), *self.design[2:], *more]
        answer = self.lint("--spef", self.checks.write("row.spef", spef), *words)
        is_good = self.lines(answer) == wanted and answer[0] == (wanted[-1] != "no fault")
        self.checks.count(what, is_good, *map(str, answer))
        self.checks.write("row.v", CHAIN)
        self.checks.write("row.spef", HEAD + NETS)

    def check_libraries(self):
        """Cells without a model, and the syntax of each library of three."""
        library = self.checks.read("cells.lib").replace(b'"20, 40", "30, 60"', b'"20, 40"')
        words = [*self.design[:4], "--lib", self.checks.write("bad.lib", library), "--spef", self.spef]
        answer = self.lines(self.lint(*words))
        line, column = files.place_of(library, library.index(b'values ("20, 40");'))
        self.checks.count("a table", answer[0] == f"{line}:{column}: E20 cell INV only bad table [gdc stops here]", *answer)
        cut = self.checks.write("cut.lib", b"library (x) {\n  cell (")
        corners = ["--lib-min", self.library, "--lib-typ", cut, "--lib-max", cut]
        answer = self.lines(self.lint(*self.design[:4], *corners, "--spef", self.spef))
        wanted = ["2:9: E03 library syntax typ token 8 line 2 end inside: the file ends here [gdc stops here]"]
        wanted.append("2:9: E03 library syntax max token 8 line 2 end inside: the file ends here")
        self.checks.count("libraries that end inside", answer[:2] == wanted, *answer)

    def check_packed(self):
        packed = [self.checks.write(name, gzip.compress(self.checks.read(name))) for name in ("row.spef", "row.v", "cells.lib")]
        words = ["--spef", packed[0], "--netlist", packed[1], "--top", "top", "--lib", packed[2]]
        answer = self.lint(*words, "--mend", self.out, "--slim")
        wanted = HEAD.replace(b'"\n', b'"\n') + NETS.replace(b" 1 *CAP", b" 0 *CAP")
        self.checks.count("packed files", answer[0] == 0 and self.checks.read("row.out") == wanted, *map(str, answer))
        os.remove(self.out)
        for name in ("row.spef", "row.v", "cells.lib"):
            self.checks.write(name, gzip.decompress(self.checks.read(name)))

    def check_loads(self):
        """What is added, byte for byte, and loads that cannot be added."""
        words = ["--spef", self.spef, *self.design, "--mend", self.out, "--port-loads"]
        self.lint(*words, self.checks.write("loads", b"z 2.5e1\n\n"))
        wanted = HEAD + NETS.replace(b"1 u2:Z 1 *END", b"1 u2:Z 1\n2 z 25\n *END")
        self.checks.count("a load", self.checks.read("row.out") == wanted, self.checks.read("row.out").decode())
        os.remove(self.out)
        for loads in (b"a 1\n", b"z\n", b"z x\n", b"z -1\n", b"z 1\nz 2\n", b"y 1\n"):
            answer = self.lint(*words, self.checks.write("loads", loads))
            self.checks.count(f"loads {loads}", answer[0] == 2 and not os.path.exists(self.out), *map(str, answer))
        self.checks.write("row.spef", HEAD.replace(b"1 FF", b"3 FF") + NETS)
        answer = self.lint(*words, self.checks.write("loads", b"z 20\n"))
        self.checks.count("a load in thirds", answer[0] == 2 and not os.path.exists(self.out), *map(str, answer))
        self.checks.write("row.spef", HEAD + NETS)

    def check_kept(self):
        """A file without faults is kept byte for byte, and no input is written over."""
        answer = self.lint("--spef", self.spef, *self.design, "--mend", self.out, "--loops", "drop", "--pins", "drop")
        self.checks.count("nothing to mend", answer[0] == 0 and self.checks.read("row.out") == HEAD + NETS, *map(str, answer))
        for path in ("row.spef", "row.v", "cells.lib"):
            before = self.checks.read(path)
            answer = self.lint("--spef", self.spef, *self.design, "--mend", self.checks.path(path), "--slim")
            self.checks.count(f"{path} as output", answer[0] == 2 and self.checks.read(path) == before, *map(str, answer))
        folder = self.checks.path("no_folder/out")
        answer = self.lint("--spef", self.spef, "--mend", folder, "--slim")
        self.checks.count("a folder that there is not", answer[0] == 2, *map(str, answer))

    def check_words(self):
        spef = ["--spef", self.spef]
        faulty = [[], ["--spef"], [*spef, "--frob"], [*spef, "--top", "top"], [*spef, *self.design[:4]], [*spef, "--mend", self.out]]
        faulty += [[*spef, "--slim"], [*spef, "--mend", self.out, "--pins", "drop"], [*spef, *self.design, "--lib-min", self.library]]
        faulty += [["--spef", self.checks.path("none")], ["--spef", self.checks.folder], [*spef, *self.design[:4], "--lib", "none"]]
        for words in faulty:
            answer = self.lint(*words)
            self.checks.count(f"words {words}", answer[0] == 2 and answer[1] == b"", *map(str, answer))
