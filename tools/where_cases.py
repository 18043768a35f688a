"""Refused runs of every kind, each with the place that gdc-where has to show.

A case is the line of gdc, the words of the command, and its files. The place is marked in its file by « and ».
"""

LIBRARY = """library (L) {
  time_unit : "1ps";
  capacitive_load_unit (1, ff);
  lu_table_template (t22) { variable_1 : input_net_transition; variable_2 : total_output_net_capacitance;
    index_1 ("10, 30"); index_2 ("1, 3"); }
  cell (INV) {
    pin (A) { direction : input; capacitance : 1; }
    pin (Z) { direction : output;
      timing () { related_pin : "A"; timing_sense : negative_unate;
        cell_rise (t22) { values ("20, 40", "30, 60"); }
        cell_fall (t22) { values ("10, 20", "16, 32"); }
        rise_transition (t22) { values ("12, 16", "20, 28"); }
        fall_transition (t22) { values ("10, 14", "18, 22"); } } } }
  cell (PAD) { pin (A) { direction : input; } pin (P) { direction : inout; } }
  /* "cell (GONE)" { */
}
"""
FLAT = "flat --netlist n.v --top top --lib l.lib"
CALC = "calc --netlist n.v --top top --spef p.spef --lib l.lib --input-slew 20"
WIRES = "wires --spef p.spef"
LOOKUP = "lookup --lib l.lib --cell INV --slew 20 --load 2"
HEAD = '*SPEF "x" *DESIGN "top"\n*C_UNIT 1 FF *R_UNIT 1 OHM\n'
CHAIN = "module top (a, z);\n  input a;\n  output z;\n  wire n;\n  INV u1 (.A(a), .Z(n));\n  INV u2 (.A(n), .Z(z));\nendmodule\n"
SECTIONS = "*D_NET a 1 *CAP 1 a 1 *END\n*D_NET n 1 *CAP 1 u1:Z 0.5 *END\n*D_NET z 1 *CAP 1 u2:Z 0.5 *END\n"


def wires(line, text):
    return line, WIRES, {"p.spef": HEAD + text}


def flat(line, netlist, library=LIBRARY):
    return line, FLAT, {"n.v": netlist, "l.lib": library}


def calc(line, netlist, sections, library=LIBRARY, more=""):
    return line, CALC + more, {"n.v": netlist, "p.spef": HEAD + sections, "l.lib": library}


def lookup(line, old, new):
    """The library with one text in place of another."""
    assert LIBRARY.count(old) > 0, old
    return line, LOOKUP, {"l.lib": LIBRARY.replace(old, new, 1)}


def cell_fault(fault, old, new):
    return lookup(f"E20 cell INV only {fault}", old, new)


def corners(line, netlist, library, other):
    words = "calc --netlist n.v --top top --spef p.spef --lib-min l.lib --lib-typ l.lib --lib-max m.lib --input-slew 20"
    return line, words, {"n.v": netlist, "p.spef": HEAD + SECTIONS, "l.lib": library, "m.lib": other}


def top(body, ports="a", inputs="a"):
    """The top module with this body."""
    return f"module top ({ports});\n  input {inputs};\n{body}endmodule\n"


def low(body, ports="i"):
    """A module that stands below the top."""
    return f"module low ({ports});\n  input i;\n{body}endmodule\n"


TOKENS = [
    flat("E01 netlist syntax token 13", top("  INV u1 («a»);\n")),
    flat("E01 netlist syntax token 5", "module top ( a«»"),
    flat("E02 not structural assign token 15", top("  output z;\n  «assign» z = a;\n", "a, z")),
    lookup("E03 library syntax only token 11 line 3 unexpected", "capacitive_load_unit (1", ";«)» capacitive_load_unit (1"),
    wires("E04 spef syntax token 17", "// a comment\n*D_NET n 1 *CONN *I a:Z «X» *END\n"),
    wires("E05 spef form *R_NET token 11", "«*R_NET» n 1 *END\n"),
    wires("E30 spef number bad number token 21", "*D_NET n 1 *CONN *I a:Z O\n*CAP 1 a:Z «-1» *END\n"),
    wires("E30 spef number value too large token 21", "*D_NET n 1 *CONN *I a:Z O\n*CAP 1 a:Z «1e7» *END\n"),
    ("E30 spef number bad unit token 0", WIRES, {"p.spef": '*SPEF "x" *R_UNIT 1 OHM *D_NET «n» 1 *END'}),
    ("E30 spef number bad unit token 4", WIRES, {"p.spef": '*SPEF "x" *C_UNIT «1» F *R_UNIT 1 OHM'}),
    wires("E31 name index repeated token 14", "*NAME_MAP\n*1 a\n«*01» b\n"),
    wires("E31 name index unknown token 12", "*D_NET «*7» 0 *END"),
    wires("E37 foreign coupling n token 20", "*D_NET n 1 *CONN *I a:Z O *CAP 1 «p:1» q:1 0.4 *END\n"),
    ("E62 sdf syntax token 4", "show --sdf x.sdf", {"x.sdf": "(DELAYFILE) «x»"}),
    ("E62 sdf syntax token 4", "show --sdf x.sdf", {"x.sdf": '(DELAYFILE ( «"open»'}),
]

M = "module m (a); input a; endmodule\n"
RING = top("  wire q, p;\n  INV u1 (.A(q), .Z(p));\n  INV u2 (.A(p), .«Z»(q));\n")
TWO_LOW = "  wire [2:0] m;\n  INV a (.A(i), .Z(«n»));\n  INV b (.A(n), .Z(o));\n"
NETLISTS = [
    flat("E06 repeated name u1", top("  INV u1 (.A(a));\n  INV «u1» (.A(a));\n")),
    flat("E06 repeated name A", top("  INV u1 (.A(a), .«A»(a));\n")),
    flat("E06 repeated name a", M + top("", "a, b, «a»", "a, b")),
    flat("E06 repeated name m", M + "module «m» (); endmodule\nmodule top (); endmodule\n"),
    flat("E07 bad range d", top("  INV u1 (.A(d[0]));\n  INV u2 (.A(«d»[4]));\n", "d", "[3:0] d")),
    flat("E07 bad range d", top("", "d", "[1048576:0] «d»")),
    flat("E07 bad range d", top("  wire [4:0] «d»;\n", "d", "[3:0] d")),
    flat("E07 bad range 0'b0", top("  INV u1 (.A(a));\n  INV u2 (.A(«0'b0»));\n")),
    flat("E07 bad range A", top("  INV u1 (.A(a));\n  INV u2 (.«A»(70000'b0));\n")),
    flat("E08 port direction b", top("", "a, «b»")),
    flat("E08 port direction b", top("  output «b»;\n")),
    flat("E11 unknown cell NOR7 only", low("  NOR7 «u9» (.A(i));\n") + top("  low u1 (.i(a));\n")),
    flat("E12 unknown port u1/u2 gnd", low("  INV u2 (\n    .A(i),\n    .«gnd»(i)\n  );\n") + top("  low u1 (.i(a));\n")),
    flat("E12 unknown port u1 x", low("") + top("  low u1 (.i(a), .«x»(a));\n")),
    flat("E13 width u1 A want 1 got 2", top("  INV u1 (.«A»(a));\n", inputs="[1:0] a")),
    flat("E14 recursive module m", "module «m» (i);\n  input i;\n  m u (.i(i));\nendmodule\n" + top("  m u (.i(a));\n")),
    flat("E15 name clash u1/n", low("  wire «n»;\n") + top("  wire \\u1/n ;\n  low u1 (.i(a));\n")),
    flat("E15 name clash u1/u2", low("  INV «u2» (.A(i));\n") + top("  INV \\u1/u2 (.A(a));\n  low u1 (.i(a));\n")),
    flat("E16 inout pin u[1] P", top("  PAD \\u[1] (.A(a), .«P»(a));\n")),
    flat("E17 several drivers z", top("  output z;\n  INV u1 (.A(a), .Z(z));\n  INV u2 (.A(a), .«Z»(z));\n", "a, z")),
    flat(
        "E17 several drivers z[1]",
        low("  output [1:0] o;\n  INV u1 (.A(i), .Z(o[1]));\n  INV u2 (.A(i), .Z(o[0]));\n  INV u3 (.A(i), .«Z»(o[0]));\n", "i, o")
        + top("  output [3:0] z;\n  low u1 (.i(a), .o(z[2:1]));\n", "a, z"),
    ),
    calc("E33 missing net n", CHAIN.replace("wire n", "wire «n»"), SECTIONS.replace("D_NET n", "D_NET m")),
    calc("E33 missing net u1/n", low("  output o;\n" + TWO_LOW, "i, o") + top("  output z;\n  low u1 (.i(a), .o(z));\n", "a, z"), SECTIONS),
    calc("E40 loop q p", RING, SECTIONS, more=" --missing zero"),
    calc("E41 outside u2 A Z rise only delay load 7000000", CHAIN.replace("u2", "«u2»"), SECTIONS.replace("u2:Z 0.5", "u2:Z 7")),
    calc(
        "E43 past time u2 A Z rise only delay",
        CHAIN.replace("u2", "«u2»"),
        SECTIONS.replace("1 u2:Z 0.5", "1 u2:Z 6e5 2 u2:Z 6e5"),
        more=" --outside extend",
    ),
]

# An edge without its table of transitions.
FALL = """cell_fall (t22) { values ("10, 20", "16, 32"); }
        rise_transition (t22) { values ("12, 16", "20, 28"); }
        fall_transition"""
VARIABLE = "lu_table_template (t22) { variable_1 : input_net_transition"
LIBRARIES = [
    cell_fault("bad unit", 'time_unit : "1ps"', '«time_unit : "2ps"»'),
    cell_fault("bad unit", "capacitive_load_unit (1, ff)", "«capacitive_load_unit (1, nf)»"),
    cell_fault("bad direction", "direction : output", "«direction : out»"),
    cell_fault("bad number", "capacitance : 1", "«capacitance : x»"),
    cell_fault("unknown related pin", 'related_pin : "A"', '«related_pin : "A B"»'),
    cell_fault("unknown template", "cell_rise (t22)", "«cell_rise (t23)»"),
    cell_fault("unknown variable", VARIABLE, "«lu_table_template (t22)» { variable_1 : related_out_total"),
    cell_fault("bad number", 'index_1 ("10, 30")', '«index_1 ("10, 3O")»'),
    cell_fault("bad axis", 'index_1 ("10, 30")', '«index_1 ("30, 10")»'),
    cell_fault("bad number", 'values ("10, 20", "16, 32")', '«values ("10, 2}", "16, 32")»'),
    cell_fault("bad table", 'values ("12, 16", "20, 28")', '«values ("12, 16", "20")»'),
    cell_fault("no transition", FALL, FALL.replace("cell_fall (t22)", "«cell_fall (t22)»") + "s"),
    cell_fault("negative transition", 'values ("10, 14", "18, 22")', '«values ("10, -14", "18, 22")»'),
    corners("E21 corner shape INV max entry 2", CHAIN, LIBRARY, LIBRARY.replace("pin (Z)", "«pin (Y)»")),
    corners("E11 unknown cell INV max", CHAIN.replace("INV u1", "INV «u1»"), LIBRARY, LIBRARY.replace("(INV)", "(INW)")),
    lookup("E41 outside INV A Z rise only delay slew 20000000", 'index_1 ("10, 30")', '«index_1 ("25, 30")»'),
]

DRIVEN = "*D_NET n 1 *CONN *I a:Z O *I b:A I\n"
NETS = [
    wires(
        "E32 repeated net n",
        "*D_NET n 1 *CONN *I a:Z O *END\n*D_NET m 1 *CONN *I b:Z O *END\n*D_NET «n» 1 *CONN *I a:Z O *END\n",
    ),
    wires("E60 no driver u/n[1]", "*NAME_MAP *3 u/n[1]\n*D_NET «*3» 1 *CONN *I a:Z I *END\n"),
    wires("E61 several drivers n", "*D_NET n 1 *CONN *I a:Z O *P «b» I *END\n"),
    wires("E35 unreached node n n:9", DRIVEN + "*CAP 1 «n:9» 1 *RES 1 a:Z b:A 1 *END\n"),
    wires("E36 mesh n", DRIVEN + "*RES 1 a:Z n:1 1\n2 n:1 b:A 1\n3 «a:Z b:A» 1 *END\n"),
    wires(
        "E36 mesh n/x",
        "*NAME_MAP *1 n/x *2 a\n*D_NET *1 1 *CONN *I *2:Z O *I b:A I\n"
        "*RES 1 *2:Z *1:1 1\n2 n/x:1 b:A 1\n3 «b:A a:Z» 1 *END\n",
    ),
    calc("E34 strange pin n ANT:A", CHAIN, SECTIONS.replace("*D_NET n 1", "*D_NET n 1 *CONN *I u1:Z O *I «ANT:A» I")),
]

# A cell whose second arc is missing at a corner, and the chain of modules that is one too deep.
TWO = LIBRARY.replace("pin (A) { direction", "pin (A, B) { direction", 1)
BOTH = TWO.replace('related_pin : "A"', 'related_pin : "A B"')
DEEP = "".join(f"module m{n} (i); input i; m{n + 1} u (.i(i)); endmodule\n" for n in range(70)) + "module m70 (i); input i; endmodule\n"

REST = [
    corners("E21 corner shape INV max entry 5", CHAIN, BOTH, TWO.replace("cell (INV)", "«cell (INV)»")),
    flat("E10 no top module top", "module tap (a);\n  input a;\nendmodule\n"),
    flat("E50 limit depth", DEEP + "module «top» (i); input i; m0 u (.i(i)); endmodule\n"),
    calc(
        "E42 slew limit n u2/A rise only 22000000 100000100000000000000000000",
        CHAIN.replace("u2 (.A", "u2 (.«A»"),
        SECTIONS.replace("1 u1:Z 0.5", "1 u2:A 1e6 *RES 1 u1:Z u2:A 1e8"),
        more=" --wire-slew rss --outside edge",
    ),
    ("usage at word 4: unknown word", "wires --spef x «--frob» y", {}),
    ("usage: missing --spef", "wires", {}),
    ("read fault --spef", "wires --spef none.spef", {}),
]
EVERY = TOKENS + NETLISTS + LIBRARIES + NETS + REST
