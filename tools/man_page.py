"""The man page of gdc, made of its help text, of README.md and of docs/REFUSALS.md; it is no command."""
import re
import textwrap

# What the help text has no room for: the meaning of each key.
MEANINGS = {
    "--spef": "The SPEF file, with the resistors and the capacitors of the nets.",
    "--triple": "Which member of a triple of the SPEF file counts; `typ` where nothing is said.",
    "--netlist": "The netlist, in structural Verilog.",
    "--top": "The module of the netlist that is the top of the design.",
    "--input-slew": "The slew at each input port of the top, from 0 to 1000000.",
    "--lib": "The Liberty library with the cells.",
    "--lib-min": "The library of the corner `min`. With one for each corner the corners are computed side by side, and a delay has three values.",
    "--lib-typ": "The library of the corner `typ`.",
    "--lib-max": "The library of the corner `max`.",
    "--port-load": "The load at each output port of the top, from 0 to 1000000; 0 where nothing is said.",
    "--missing": "What a net is that has no section in the SPEF file: `refuse` ends the run, as where nothing is said, and `zero` takes the net "
    "as one without a wire.",
    "--wire-slew": "The slew behind a wire: `none` takes that of the driver, as where nothing is said, and `rss` the root of the sum of the "
    "squares of the driver's slew and the wire's own.",
    "--outside": "What is done where a slew or a load lies outside a table: `refuse` ends the run, as where nothing is said, `edge` takes the "
    "end of the axis that is passed, and `extend` goes on straight through its last two points.",
    "--sdf": "The SDF file, of gdc or of another tool.",
    "--cell": "The cell of the library.",
    "--slew": "The slew at the input of the cell, from 0 to 1000000.",
    "--load": "The load at the output of the cell, from 0 to 1000000.",
    "--shape": "The shape of the design: `chain` is one net of resistors in a row between two inverters, and `block` is inverters in a row.",
    "--size": "The number of resistors, or of inverters, from 1 to 600000.",
}
WORDS = """The words behind a command are pairs of a key and its value, in any order. Each key stands once. A number has no unit behind
it. There is no key for the output, which goes to standard output. gdc unpacks no files: in bash `<(zcat FILE)` stands in place of a packed
one. `--help` prints the commands with their keys, and `--version` the version."""
PROVED = """gdc is proved: what `README.md` calls so holds for every input. `PROOF.txt` says from which sources this program was proved, and
with which verdict."""
NOT_STARTED = "Where the program cannot be started, the status is that of the shell, 126 or 127."
ENVIRONMENT = {
    "GLIBC_TUNABLES": "What the C library is asked for: large pages of memory, by which a run takes less time. `bin/gdc` sets it where nobody has.",
    "GDC": "The program that the tools beside gdc run; else it is this one. gdc itself does not read it.",
}
FILES = {
    "lib/gdc/gdc": "The program. `bin/gdc` is a script that starts it.",
    "lib/gdc/desk/": "The tools beside it, which need Python 3.",
    "lib/gdc/installed.json": "The files of this installation with their checksums. In the sources `tools/install --check` compares them, and "
    "`tools/install --remove` removes them.",
    "share/doc/gdc/": "The documents, and `PROOF.txt`.",
    "share/doc/gdc/examples/": "Files to run.",
}
LITERAL = str.maketrans({"\\": r"\e", "-": r"\-", "'": r"\(aq", "`": r"\(ga", "^": r"\(ha", "~": r"\(ti"})


def literal(text):
    """A text that has to stand as it is, as a command."""
    return text.translate(LITERAL)


def bold(text):
    return f"\\fB{literal(text)}\\fR"


def line(text):
    """A line of text, which groff does not take as a request."""
    return "\\&" + text if text.startswith((".", "'")) else text


def prose(text):
    """Prose of a document as one line. What stands there in backquotes is bold. The hyphens of a key are none of prose."""
    parts = re.split("`([^`]*)`", " ".join(text.split()))
    parts[::2] = [part.replace("\\", r"\e").replace("--", r"\-\-") for part in parts[::2]]
    return line("".join(bold(part) if number % 2 else part for number, part in enumerate(parts)))


def sentence(text):
    return f"{text[0].upper()}{text[1:]}."


def entry(name, text):
    return [".TP", line(name), prose(text)]


def value_text(value):
    """The value of a key: words that stand as they are, or a name for what stands there."""
    return "|".join(map(bold, value.split("|"))) if "|" in value else f"\\fI{literal(value)}\\fR"


def form_text(name, form):
    """A command with its keys. A key and its value stand on one line."""
    pairs = [f"{bold(key.name)}\\ {value_text(key.value)}" for key in form]
    return " ".join([bold(name), *(pair if key.is_needed else f"[{pair}]" for key, pair in zip(form, pairs))])


def has_keys(command):
    return any(command.forms)


def commands_text(text):
    """The commands that have keys with what they do, and the keys with their meanings."""
    lines = [".SH COMMANDS"]
    for command in filter(has_keys, text.commands.values()):
        for number, form in enumerate(command.forms):
            lines += [".TQ" if number else ".TP", form_text(command.name, form)]
        lines.append(prose(sentence(command.about)))
    lines.append(".SH KEYS")
    for key in text.keys().values():
        lines += entry(f"{bold(key.name)} {value_text(key.value)}", MEANINGS.get(key.name, ""))
    return lines


def statuses_text(text, refusals):
    """The statuses of the help text, each with what docs/REFUSALS.md says of the streams."""
    streams = dict(re.findall(r"^\| [^|]+ \| (\d+) \| ([^|]+ \| [^|]+) \|$", refusals, re.MULTILINE))
    lines = [".SH EXIT STATUS"]
    for status, meaning in text.statuses.items():
        out, error = streams[status].split(" | ")
        error = error.replace("none", "nothing")
        lines += entry(bold(status), f"{sentence(meaning)} Standard output: {out}. Standard error: {error}")
    return [*lines, ".PP", NOT_STARTED]


def example_lines(block):
    """An indented block of README.md, whose commands are cut to the width of a page."""
    joined = re.sub(r" \\\n *", " ", textwrap.dedent(block))
    for text in joined.splitlines():
        if text.startswith("$ ./gdc"):
            # (a key and its value stay on one line)
            text = re.sub(r"(--\S+) ", "\\1\0", text.replace("./gdc", "gdc", 1))
            text = " \\\n".join(textwrap.wrap(text, 70, subsequent_indent="    ", break_on_hyphens=False)).replace("\0", " ")
        yield from text.splitlines()


def examples_text(readme):
    blocks = [block for block in re.findall(r"(?:^    .*\n)+", readme, re.MULTILINE) if block.startswith("    $ ./gdc ")]
    lines = [".SH EXAMPLES", prose("These run in the folder `share/doc/gdc`. `README.md` there works their numbers by hand.")]
    for block in blocks:
        lines += [".PP", ".nf", *(line(literal(text)) for text in example_lines(block)), ".fi"]
    return lines


def tools_text(tools):
    lines = [".SH TOOLS BESIDE IT", "They are not proved. Each has", bold("--help") + "."]
    for tool in tools:
        lines += entry(bold(tool.name), tool.about)
    return lines


def documents_text(readme):
    """The documents by the table of README.md."""
    table = readme.partition("| document | for |\n")[2].splitlines()[1:]
    rows = [row.strip("| ").split(" | ") for row in table if row.startswith("|")]
    lines = [".SH SEE ALSO", prose("In `share/doc/gdc`, beside `README.md`:")]
    for name, use in rows:
        lines += entry(bold(name.strip("`")), sentence(use))
    return lines


def page(text, version, tools, readme, refusals):
    """The page of a help text, a version, the tools beside the program, and the two documents."""
    does = text.title.partition(":")[0].removeprefix("gdc ")
    # (no word is cut in two, since it may be a key)
    lines = [f'.TH GDC 1 "" "gdc {version}" "User commands"', ".nh", ".ad l", ".SH NAME", f"gdc \\- {does}", ".SH SYNOPSIS"]
    lines.append("\\fBgdc\\fR \\fICOMMAND\\fR [\\fIKEY VALUE\\fR]...")
    for command in text.commands.values():
        lines += [] if has_keys(command) else [".br", bold(f"gdc {command.name}")]
    lines += [".SH DESCRIPTION", prose(text.title), ".PP", prose(WORDS), ".PP", prose(PROVED)]
    lines += commands_text(text) + statuses_text(text, refusals)
    for title, entries in (("ENVIRONMENT", ENVIRONMENT), ("FILES", FILES)):
        lines.append(f".SH {title}")
        lines += [part for name, meaning in entries.items() for part in entry(bold(name), meaning)]
        if title == "FILES":
            lines += [".PP", prose("These names count from the folder that has `bin/gdc`.")]
    return "\n".join(lines + examples_text(readme) + tools_text(tools) + documents_text(readme)) + "\n"
