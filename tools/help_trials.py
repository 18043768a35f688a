"""Trials of what tools/install makes of the help texts: the table, the man page and the completions; it is no command."""
import os
import re
import shutil

import man_page
from help_table import help_of
from install_copies import example, installed, put, run
from released import read

HELP = read(example("help.txt")).decode()
# What stands on a command line behind which a word is completed, and what it may be.
COMPLETED = {
    ("gdc", "ca"): "calc",
    ("gdc", ""): "wires calc show lookup flat trial",
    ("gdc", "--v"): "--version",
    ("gdc", "--help", ""): "",
    ("gdc", "calc", "--out"): "--outside",
    ("gdc", "calc", "--outside", ""): "refuse edge extend",
    ("gdc", "calc", "--outside", "ex"): "extend",
    ("gdc", "trial", "--shape", ""): "chain block",
    ("gdc", "show", ""): "--sdf",
    ("gdc", "show", "--sdf", ""): "FILES",
    ("gdc", "lookup", "--lib", "a b.lib", "--load", "2", "--s"): "--slew",
    ("gdc", "calc", "--top", ""): "",
    ("gdc", "calc", "--lib", "x", "--li"): "",
    ("gdc", "calc", "--lib-min", "x", "--lib"): "--lib-max --lib-typ",
    ("gdc", "calc", "--triple", "typ", "--lib"): "--lib",
    ("/a b/bin/gdc", "wires", "--triple", "m"): "min max",
    ("gdc-where", "fl"): "flat",
    ("gdc-where", "--program", "x", "calc", "--wire-slew", ""): "none rss",
    ("gdc-cover", ""): "calc",
    ("gdc-lint", "--loops", ""): "drop",
    ("gdc-lint", "--mi"): "--missing",
    ("gdc-report", "--format", ""): "text csv json",
    ("gdc-report", ""): "FILES",
    ("gdc-lib", "-o", ""): "FILES",
    ("gdc-run", "--ag"): "--again",
}
BASH = """
compopt() { [ "$*" = "-o default" ] && files=FILES; }
. "$1" && shift && COMP_WORDS=("$@") COMP_CWORD=$(($# - 1)) && _gdc && echo ${files-"${COMPREPLY[@]}"}
"""
# As compadd of zsh does, this takes the words that begin as the last one does.
ZSH = """
compadd() { shift; echo ${(M)@:#${words[CURRENT]}*} }
_files() { echo FILES }
fpath=("$1" $fpath) && shift && autoload -Uz _gdc && words=("$@") CURRENT=$# && _gdc
"""


def line_of(name, form):
    """The line of the help text of a form."""
    keys = (f" {key.name} {key.value}" if key.is_needed else f" [{key.name} {key.value}]" for key in form)
    return f"  {name}{''.join(keys)}"


def is_read_whole(program):
    """The table has all that the help text says, and no line of another form is passed over."""
    table, lines = help_of(HELP), []
    for command in table.commands.values():
        lines += [*(line_of(command.name, form) for form in command.forms), f"      {command.about}"]
    statuses = (f"  {status}  {meaning}" for status, meaning in table.statuses.items())
    again = "\n".join([table.title, "Commands, each with its keys:", *lines, "Status:", *statuses, ""])
    yield "the help text, made of its table", again == HELP, again
    yield "each key has a meaning", man_page.MEANINGS.keys() == table.keys().keys(), sorted(man_page.MEANINGS.keys() ^ table.keys().keys())
    for wrong in ("--spef", "--spef FILE more", "{--spef FILE}"):
        try:
            is_refused = not help_of(HELP.replace("wires --spef FILE", f"wires {wrong}"))
        except ValueError as fault:
            is_refused = "wires" in str(fault)
        yield f"a line of another form: {wrong}", is_refused


def is_a_manual(program):
    """The man page is set without a warning, has what the help text has, and its examples run."""
    _, prefix = installed(program, "top", True)
    path, documents = f"{prefix}/share/man/man1/gdc.1", f"{prefix}/share/doc/gdc"
    page = read(path).decode()
    # (groff would set the first as a hyphen, which no shell takes)
    yield "hyphens stand as they are", "--" not in page
    yield from examples_run(page, f"{prefix}/bin", documents)
    named = re.findall(r"^\\fB((?:docs|examples)/\S+\.md)", page, re.MULTILINE)
    yield "the documents are there", len(named) >= 9 and all(os.path.exists(f"{documents}/{name}") for name in named), named
    if shutil.which("groff"):
        status, out, err = run("groff", "-man", "-ww", "-Tutf8", "-P-cbou", path)
        yield "no warning of groff", (status, err) == (0, b""), err
        words = " ".join(out.decode().replace("\N{HYPHEN}", "-").replace("\N{MINUS SIGN}", "-").split())
        lacking = [line for line in HELP.splitlines()[2:14] if line.startswith("  ") and line[2:].strip()[1:] not in words]
        yield "it has the lines of the help text", lacking == [], lacking, words
        titles = "NAME SYNOPSIS DESCRIPTION COMMANDS KEYS EXIT STATUS ENVIRONMENT FILES EXAMPLES TOOLS BESIDE IT SEE ALSO"
        found = " ".join(line for line in out.decode().splitlines() if line and line[0] != " " and "GDC(1)" not in line)
        yield "its sections", found == titles, found
    if shutil.which("man"):
        found = run("man", "-w", "gdc", PATH=f"{prefix}/bin:{os.environ['PATH']}")
        yield "man finds it by PATH", found[:2] == (0, path.encode() + b"\n"), found


def examples_run(page, programs, folder):
    """Each example of the page prints what the page has, where it is run. Two points stand for any lines."""
    back = {escape: chr(code) for code, escape in man_page.LITERAL.items()}
    blocks = re.findall(r"^\.nf\n(.*?)^\.fi$", page, re.MULTILINE | re.DOTALL)
    yield "there are examples", len(blocks) >= 5, blocks
    for block in blocks:
        text = re.sub(r"\\(?:e|-|\(..)", lambda found: back[found[0]], block).replace("\\&", "").replace(" \\\n", " ")
        commands = [line[2:] for line in text.splitlines() if line.startswith("$ ")]
        wanted = [line for line in text.splitlines() if line != ".." and not line.startswith("$ ")]
        status, out, err = run("bash", "-ec", "\n".join(commands), folder=folder, PATH=f"{programs}:{os.environ['PATH']}")
        lines = iter(out.decode().splitlines())
        yield f"the example {commands[0]}", status == 0 and all(line in lines for line in wanted), status, out, err


def is_completed(program):
    """Bash and zsh complete a command line by what the help texts have."""
    _, prefix = installed(program, "pre fix", True)
    shells = {"bash": (BASH, f"{prefix}/share/bash-completion/completions/gdc"), "zsh": (ZSH, f"{prefix}/share/zsh/site-functions")}
    for shell, (script, path) in shells.items():
        if not shutil.which(shell):
            continue
        put(shell, script)
        options = ["-f"] if shell == "zsh" else ["--norc", "--noprofile"]
        for words, wanted in COMPLETED.items():
            found = run(shell, *options, shell, path, *words)
            yield f"{shell} completes {words}", found == (0, f"{wanted}\n".encode(), b""), found
    for name in ("gdc-where", "gdc-run"):
        yield f"the completion of {name}", os.path.samefile(f"{prefix}/share/bash-completion/completions/{name}", shells["bash"][1])


TRIALS = (is_read_whole, is_a_manual, is_completed)
