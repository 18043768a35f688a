"""Trials of desk/gdc-run with faults of files, words and streams; it is no command."""
import os
import pty
import subprocess

from run_cases import JOBS, TABLES, get, lines_of, put, put_files, put_script, run, start

from run_tables import WrongTable, read_jobs

NO_KEY = "there is no such key; there are netlist, top, "
# The text of FILE.toml, and what is said behind its name. The text may stand in front of the good one.
WRONG = [
    ("x", "Expected '=' after a key in a key/value pair"),
    ("netlst = 3\n" + TABLES, f"netlst: {NO_KEY}"),
    (TABLES + "lib_min = 'x'\n", f"block.twin.lib_min: {NO_KEY}"),
    (TABLES + '"a b" = 1\n', f'block.twin."a b": {NO_KEY}'),
    ("missing = 'none'\n" + TABLES, 'missing: this must be one of "refuse", "zero"'),
    (TABLES.replace("= 20", "= '20'"), "input-slew: this must be a number from 0 to 1000000, without quotes and unit"),
    (TABLES.replace("= 20", "= -1"), "input-slew: this must be a number from 0 to 1000000"),
    (TABLES.replace("= 20", "= inf"), "input-slew: this must be a number from 0 to 1000000"),
    (TABLES.replace("= 20", "= true"), "input-slew: this must be a number from 0 to 1000000"),
    (TABLES.replace("= 20", "= 1e99999999999999999999"), "a number has too large an exponent"),
    (TABLES.replace("input-slew = 20\n", ""), "block.blk: at the corner slow there is no input-slew"),
    (TABLES.replace("spef =", "stub ="), "block.blk: at the corner slow there is no spef"),
    (TABLES.replace('lib-min = "slices_min.lib"\n', ""), "block.blk: at the corner all there must be lib, or all of lib-min, lib-typ"),
    ("lib = 'a.lib'\n" + TABLES, "block.blk: at the corner all there must be lib, or all of"),
    ("triple = 'min'\n" + TABLES, "block.blk: at the corner all triple stands beside the libraries of three corners"),
    (TABLES + "lib = []\n", "block.twin.lib: this must be a file's name in quotes, or a list of such"),
    (TABLES + "netlist = '--x'\n", "block.twin.netlist: this must be a file's name in quotes, which does not begin with -"),
    (TABLES + "corners = ['fast']\n", "block.twin.corners: there is no table [corner.fast]"),
    (TABLES + "[block.twin.fast]\n", "block.twin.fast: the block has no corner fast"),
    (TABLES + "[block.'a/b']\n", 'block."a/b": a name has letters, digits, _ and - alone'),
    ("input-slew = 20\n[block.a]\n", "corner: there is none: write [corner.NAME]"),
    ("input-slew = 20\n[corner.a]\n", "block: there is none: write [block.NAME]"),
]


def fault_of(text):
    """What is said of a file with this text."""
    try:
        read_jobs("wrong.toml", text.encode())
    except WrongTable as fault:
        return str(fault)
    return "nothing"


def wrong_files(program):
    put_files()
    for text, line in WRONG:
        fault = fault_of(text)
        yield f"FILE.toml with {line}", fault.startswith(f"wrong.toml: {line}") and "\n" not in fault, fault
    put("wrong.toml", b"\xff")
    put("key.toml", "missing = 'none'\n" + TABLES)
    cases = [
        (["wrong.toml"], 2, "gdc-run: wrong.toml: it is not UTF-8\n"),
        (["key.toml", "--list"], 2, 'gdc-run: key.toml: missing: this must be one of "refuse", "zero"\n'),
        (["none.toml"], 3, "gdc-run: none.toml: No such file or directory\n"),
        (["--again", "none.json"], 3, "gdc-run: none.json: No such file or directory\n"),
        (["--again", "run.toml"], 2, "gdc-run: run.toml: this is no manifest of gdc-run\n"),
        (["run.toml", "--program", "none"], 2, "gdc-run: there is no program at none\n"),
        (["run.toml", "--program", "/bin/true"], 2, "gdc-run: the program at /bin/true reads no file of --sdf, so it is no gdc\n"),
        ([], 2, "gdc-run: error: give FILE.toml, or --again and a manifest\n"),
        (["run.toml", "-j", "0"], 2, "gdc-run: error: argument -j: a number from 1 on is wanted\n"),
        (["run.toml", "--list", "--make"], 2, "gdc-run: error: argument --make: not allowed with argument --list\n"),
    ]
    for words, status, line in cases:
        ran = run(program, *words)
        yield f"gdc-run {' '.join(words)}", (ran.returncode, ran.stdout) == (status, "") and ran.stderr.endswith(line), ran.stderr
    yield "nothing is written of wrong files", not os.path.exists("sdf")
    put("sdf", "a file")
    ran = run(program, "run.toml")
    is_well = (ran.returncode, ran.stderr, get("sdf")) == (4, "gdc-run: sdf: File exists\n", b"a file")
    yield "a file in place of the folder", is_well, ran.stderr


def streams(program):
    """What is written where: progress on a terminal alone, help, and a device that is full."""
    put_files()
    ours, theirs = pty.openpty()
    with start(program, "run.toml", stdout=subprocess.PIPE, stderr=theirs) as started:
        said = started.stdout.read()
    os.close(theirs)
    shown = os.read(ours, 100_000).decode()
    os.close(ours)
    yield "progress on a terminal", "0 of 4 jobs, 0 s; now " in shown and shown.endswith("\r\x1b[K"), repr(shown)
    yield "the lines beside it", lines_of(said) == dict.fromkeys(JOBS, "done"), said
    helped = run(program, "--help")
    missing = [key for key in ("lib-min", "wire-slew", "stub", "cut", "out", "corners", "--again") if f"  {key}" not in helped.stdout]
    yield "the help", helped.returncode == 0 and not missing and helped.stderr == "", missing
    if os.path.exists("/dev/full"):
        with open("/dev/full", "wb") as full:
            with start(program, "run.toml", stdout=full, stderr=subprocess.PIPE) as started:
                said = started.stderr.read()
        yield "a full device", (started.returncode, said) == (4, "gdc-run: standard output: No space left on device\n"), said


def unread(program):
    """Inputs that are missing, cut or wrong: each job says which, and its end is the status."""
    put_files()
    os.remove("twin.v")
    put("slices_corners.spef.gz", get("slices_corners.spef.gz")[:-9])
    ran = run(program, "run.toml")
    yield "files that cannot be read", ran.returncode == 3 and lines_of(ran.stdout) == dict.fromkeys(JOBS, "FAILED"), ran.stdout
    yield "which is missing", ran.stdout.count("\ntwin.v: No such file or directory\n") == 2, ran.stdout
    yield "which is cut", ran.stdout.count("\nslices_corners.spef.gz: what gzip packed is not whole\n") == 2, ran.stdout
    put_files()
    put("slices_max.lib", "library (x) {\n  cell (")
    ran = run(program, "run.toml", "--only", "blk.slow")
    wanted = "slices_max.lib:2:9: the file ends here, where `)` is wanted"
    yield "a library that gdc-lib refuses", ran.returncode == 1 and ran.stdout.splitlines()[1] == wanted, ran.stdout
    put_files()
    ends = [("kill -9 $$", 5, "program ends with status -9"), ("echo 'gdc: write fault' >&2; exit 4", 4, "gdc: write fault")]
    for text, status, said in ends:
        put_script("program", f'#!/bin/sh\n[ "$1" = calc ] || exec {program} "$@"\necho half\n{text}\n')
        ran = run(os.path.abspath("program"), "run.toml", "--only", "blk.all")
        left = [name for name in os.listdir("sdf") if name.startswith("blk.all")]
        is_well = ran.returncode == status and said in ran.stdout and left == ["blk.all.json"]
        yield f"a program that does {text}", is_well, ran.stdout, left
