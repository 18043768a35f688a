"""Makes files of the four formats that gdc mostly refuses: small valid ones with a change or two."""
import os

from desk_checks import ROOT

import files
import texts

EXAMPLES = {
    "verilog": ("slices.v", "two_level.v"),
    "liberty": ("cells.lib", "inverter.lib", "slices_min.lib"),
    "spef": ("star.spef", "block.spef", "extracted.spef", "mesh.spef", "slices.spef"),
    "sdf": ("star.sdf", "slices.sdf", "slices_corners.sdf"),
}

# Files with what the examples have little of.
OWN = {
    "verilog": rb"""`timescale 1ns/1ps
(* top = 1 *) module top (input [3:0] \d.in , output wire [1:0] q, input ck);
  wire [1:0] \n$1 ; // a wire; with a mark
  INVX1 \u/0 (.A(\d.in [0]), .Y(\n$1 [1])), u1 (.A(1'b0), .Y());
  low u2 (.i({\d.in [2:1], 2'sb1x}), .o({q[0], \n$1 [0]}));
endmodule
module low (i, o); input [3:0] i; output [1:0] o; endmodule
""",
    "liberty": rb"""library ("a b") { /* a comment; } */ time_unit : "1ps" capacitive_load_unit (1, \
 ff) ;; bus_naming_style : "%s[%d]"; x : bus[3:0] + a [1 ; y : "a \"q\" \
 b" // more
  z (a, "b", c) ; cell ("INV") { pin (A, B[1:0]) { direction : input; } }
};
""",
    "spef": rb"""*SPEF "a b" // c
*DESIGN "d" *DESIGN_FLOW "x" y *DIVIDER . *DELIMITER : *BUS_DELIMITER < > *C_UNIT 1 pf *R_UNIT 2.5 KOHM
*NAME_MAP *1 a.b<3> *02 u\.1/x *3 "text"
*PORTS *1 I *C 0 1
*D_NET *1 1:2:3 *V 7 *CONN *I *2:Z O *C 1 2 *L 1 *D X *N *1:1 *C 0 1 *P p\ 1 B /* x */
*CAP 1 *1:1 0.1:.2:3e-1 2 *2:Z q:1 1.5 *RES 1 *2:Z *1:1 1 2 *1:1 p\ 1 2 *END
""",
    "sdf": rb"""(DELAYFILE (SDFVERSION "3.0") (DESIGN "a \" \\") (DIVIDER .) (TIMESCALE 10 ps) /* c */
(CELL (CELLTYPE "X") (INSTANCE a.b\[1\]) (DELAY (INCREMENT (IOPATH A Z (1))) (ABSOLUTE (IOPATH A Z (1:2:3) () (.5e1))
(IOPATH (posedge A) Z (1)) (INTERCONNECT a.b/c d (::1) (1:2:)) (COND x (IOPATH A B (1))))) (TIMINGCHECK (HOLD a b (1)))) // d
(cell (celltype "Y") (instance))) """,
}
ODD = {
    "verilog": [b"/*", b"(*", b"\\", b"`", b'"', b"assign", b"inout", b"4'b", b"\\x", b"#", b"[3:0]", b"endmodule", b"reg"],
    "liberty": [b"/*", b'"', b"\\", b"\\\n", b"include_file", b"{", b"}", b":", b"[", b"\x01", b"(", b";", b"\n"],
    "spef": [b"/*", b'"', b"\\", b"*R_NET", b"*INDUC", b"*END", b"-1", b"1e7", b"*77", b"*1", b"1e400", b"*C_UNIT", b"*D_NET", b"nan"],
    "sdf": [b"/*", b'"', b"\\", b"(", b")", b"\x01", b"x", b"1:2", b"RETAIN", b"CELL", b"-1e999", b"()"],
}
GAPS = {
    "verilog": [b" /* a ; */ ", b" // b\n", b"\n", b" (* c *) ", b"\n`d e\n"],
    "liberty": [b" /* a { */ ", b" // b\n", b"\n", b" \\ \n "],
    "spef": [b" /* *END */ ", b" // b\n", b"\r\n", b"\t"],
    "sdf": [b" /* ) */ ", b" // b\n", b"\n", b"\x0b"],
}


class Maker:
    """Changed files of one format."""

    def __init__(self, format, random):
        self.format, self.random = format, random
        self.files = [files.read_file(os.path.join(ROOT, "examples", name)) for name in EXAMPLES[format]] + [OWN[format]]
        self.words = sorted({word for data in self.files for word in self.tokens(data)})

    def tokens(self, data):
        return [texts.text_of(data, token) for token in texts.tokens_of(data, self.format)]

    def make(self):
        data = self.random.choice(self.files)
        for _ in range(self.random.randrange(4)):
            data = self.dressed(data)
        return self.changed(self.changed(data)) if self.random.random() < 0.2 else self.changed(data)

    def place(self, data):
        """Where a random token begins and ends."""
        tokens = list(texts.tokens_of(data, self.format))
        token = self.random.choice(tokens) if tokens else texts.Token(1, 0, 0, "")
        return token.start, token.end

    def dressed(self, data):
        """With something that says nothing before a token."""
        start, _ = self.place(data)
        return data[:start] + self.random.choice(GAPS[self.format]) + data[start:]

    def changed(self, data):
        start, end = self.place(data)
        at = self.random.randrange(len(data) + 1)
        odd = self.random.choice(ODD[self.format])
        word = self.random.choice(self.words)
        return self.random.choice(
            [
                lambda: data[:start] + data[end:],
                lambda: data[:end] + b" " + data[start:],
                lambda: data[:start] + word + data[end:],
                lambda: data[:start] + word + b" " + data[start:],
                lambda: data[:start] + odd + b" " + data[start:],
                lambda: data[:at] + odd + data[at:],
                lambda: data[:at] + data[at + 1 :],
                lambda: data[:at] + bytes([self.random.randrange(256)]) + data[at:],
                lambda: data[:at],
                lambda: data[:start],
            ]
        )()
