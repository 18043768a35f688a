#!/usr/bin/env python3
"""Tries tools/install on a small copy of the repository, and what it makes of the help texts. tools/check_program runs it.

  tools/install_trials.py [--program PROGRAM]

The program is PROGRAM, else that of the environment variable GDC, else crates/gdc/out/gdc. What needs a tool that is not installed is skipped by
its name. The last line is 'N passed, M failed'. The status is 0 only if nothing failed.
"""
import itertools
import json
import os
import shutil
import sys
from unittest import mock

sys.dont_write_bytecode = True

import help_trials
import timed_runs
from desk_checks import parser, run_all
from install_copies import STAND_IN, VERDICT, Copy, example, installed, put, run, tree
from installation import File, Installation
from released import read, sum_of

PREFIX = "pre fix é"
TOOLS = ["gdc-cover", "gdc-diff", "gdc-lib", "gdc-lint", "gdc-report", "gdc-run", "gdc-where"]
DESIGN = ["calc", "--netlist", example("slices.v"), "--top", "blk", "--input-slew", "20", "--port-load", "5"]
TABLE = """input-slew = 20
port-load = 5
netlist = "slices.v"
spef = "slices.spef"
lib = "slices.lib"
[corner.typ]
[block.blk]
"""


def runs_alone(program):
    """The program and the tools run where nothing of the repository is, also from another folder than they were put in."""
    copy, prefix = installed(program, PREFIX, True)
    traces = [path for path, found in tree(prefix).items() if copy.path.encode() in (found[1] if isinstance(found, tuple) else b"")]
    yield "no file names the repository", traces == [], traces
    shutil.rmtree(copy.path)
    for where in (prefix, os.path.abspath("moved")):
        os.rename(prefix, where)
        gdc = f"{where}/bin/gdc"
        found = run(gdc, *DESIGN, "--spef", example("slices.spef"), "--lib", example("slices.lib"))
        yield f"the delays of a design, {where}", found == (0, read(example("slices.sdf")), b""), found
        found = run(f"{where}/bin/gdc-where", "wires", "--spef", example("mesh.spef"))
        is_told = found[2].startswith(f"{example('mesh.spef')}:24:3: gdc: E36 mesh ring\n".encode()) and b"\n  remedy: " in found[2]
        yield f"the place and the remedy of a refusal, {where}", found[0] == 1 and is_told, found
    os.symlink(gdc, "linked")
    found = run("./linked", "wires", "--spef", example("star.spef"))
    yield "a link to the script", found == (0, read(example("star.sdf")), b""), found
    found = run(gdc, "wires", "--spef", "none.spef")
    yield "the status and the line of the program", found == (3, b"", b"gdc: read fault --spef\n"), found
    yield from tools_run(f"{where}/bin", sum_of(copy.program))


def tools_run(folder, program_sum):
    yield "the tools", sorted(os.listdir(folder)) == ["gdc", *TOOLS], os.listdir(folder)
    for tool in TOOLS:
        status, out, err = run(f"{folder}/{tool}", "--help")
        yield f"the help of {tool}", status == 0 and err == b"" and tool.encode() in out, status, err
    found = run(f"{folder}/gdc-diff", example("slices.sdf"), example("slices.sdf"))
    agree = b"wires: 26 agree, 0 differ, 0 only in A, 0 only in B; largest difference 0.000 ps\n"
    yield "gdc-diff runs the program", found[0] == 0 and found[1].startswith(agree), found
    found = run(f"{folder}/gdc-lint", "--spef", example("mesh.spef"))
    yield "gdc-lint runs the program", found[0] == 1 and b":24:1: E36 mesh ring" in found[1], found
    for name in ("slices.v", "slices.spef", "slices.lib"):
        shutil.copy(example(name), name)
    put("run.toml", TABLE)
    found = run(f"{folder}/gdc-run", "run.toml")
    is_same = found[0] == 0 and read("sdf/blk.typ.sdf") == read(example("slices.sdf"))
    yield "gdc-run writes the delays", is_same, found
    if is_same and read(folder + "/../lib/gdc/gdc").startswith(b"\x7fELF"):
        yield "gdc-run tells the installed program", json.loads(read("sdf/manifest.json"))["program"]["sha256"] == program_sum


def is_compared(program):
    """--check tells what is not as it was put, a later installation mends it, and --remove leaves nothing."""
    copy, prefix = installed(program, "above/" + PREFIX)
    listed = json.loads(read(f"{prefix}/lib/gdc/installed.json"))["files"]
    there = {path: found for path, found in tree(prefix).items() if found and path != "lib/gdc/installed.json"}
    said = {path: f"link {found}" if isinstance(found, str) else f"{found[0]:o} {sum_of(found[1])}" for path, found in there.items()}
    yield "the list has each file with its checksum", listed == said, sorted(listed.keys() ^ said.keys())
    wanted = (0, f"{len(there)} files, 0 missing or changed\n", "")
    yield "nothing has changed", copy.install("--check", prefix) == wanted
    put(f"{prefix}/share/doc/gdc/README.md", read(f"{prefix}/share/doc/gdc/README.md") + b"\n")
    os.remove(f"{prefix}/share/man/man1/gdc.1")
    os.chmod(f"{prefix}/lib/gdc/gdc", 0o644)
    os.replace(f"{prefix}/bin/gdc", f"{prefix}/bin/gdc-where")
    found = copy.install("--check", prefix)
    lines = [f"changed {prefix}/{path}" for path in ("bin/gdc-where", "lib/gdc/gdc", "share/doc/gdc/README.md")]
    lines += [f"missing {prefix}/{path}" for path in ("bin/gdc", "share/man/man1/gdc.1")]
    *told, last = found[1].splitlines()
    yield "what has changed or is missing", found[0] == 1 and sorted(told) == lines and last.endswith(" files, 5 missing or changed"), found
    copy.install(prefix)
    yield "a second installation mends it", copy.install("--check", prefix) == wanted
    found = copy.install("--remove", prefix)
    yield "nothing is left", found[0] == 0 and not os.path.exists("above"), found
    found = copy.install("--remove", prefix)
    yield "nothing is there to be removed", found == (1, "", f"install: gdc is not installed in {prefix}\n"), found
    yield "nothing is there to be compared", copy.install("--check", prefix)[0] == 1


def keeps_others(program):
    """Files of others are kept, and none is overwritten unless that is asked for."""
    copy = Copy("copy", program)
    put("top/bin/gdc", "another's")
    put("top/share/man/man1/other.1", "another's")
    os.makedirs("top/lib")
    before = tree("top")
    status, _, err = copy.install("top")
    yield "a file of another is named", status == 1 and err.endswith(f":\n  {os.path.abspath('top')}/bin/gdc\n"), status, err
    yield "nothing is changed", tree("top") == before
    yield "it is overwritten where that is asked for", copy.install("--force", "top")[0] == 0 and tree("top") != before
    put("top/share/doc/gdc/notes", "another's")
    copy.install("--remove", "top")
    after, wanted = tree("top"), {**before, "share/doc": None, "share/doc/gdc": None, "share/doc/gdc/notes": (0o644, b"another's")}
    del wanted["bin/gdc"]
    yield "what others have put is kept", after == wanted, after
    os.makedirs("folder/bin/gdc")
    found = copy.install("--force", "folder")
    yield "a folder in place of a file", found == (1, "", f"install: {os.path.abspath('folder')}/bin/gdc is a folder\n"), found
    put("file/share", "another's")
    before = tree("file")
    found = copy.install("file")
    yield "a file in place of a folder", found[0] == 1 and found[2].startswith("install: ") and tree("file") == before, found, tree("file")
    put("text/lib/gdc/installed.json", "[]")
    found = copy.install("text")
    yield "a list of another", found[0] == 1 and found[2].endswith("is no list of tools/install\n") and len(tree("text")) == 3, found


def is_renewed(program):
    """A later installation takes the place of an earlier one. Where it fails, the earlier one stays."""
    copy, prefix = installed(program, "top")
    for name in ("examples/star.spef", "desk/README.md"):
        os.remove(f"{copy.path}/{name}")
    put(f"{copy.path}/README.md", "# another\n")
    put(f"{copy.path}/LICENSE", "a licence\n")
    status, *said = copy.install(prefix)
    found = tree(f"{prefix}/share/doc/gdc")
    yield "a second installation", status == 0 and copy.install("--check", prefix)[0] == 0, said
    yield "what is new", found["README.md"] == (0o644, b"# another\n") and found["LICENSE"] == (0o644, b"a licence\n")
    yield "what is gone", found.keys().isdisjoint(["examples/star.spef", "desk", "desk/README.md"]), sorted(found)
    shutil.rmtree(f"{prefix}/share/zsh")
    put(f"{prefix}/share/zsh", "another's")
    put(f"{copy.path}/README.md", "# a third\n")
    before = tree(prefix)
    status, *said = copy.install(prefix)
    yield "a third one fails", status == 1, said
    yield "all is as it was", tree(prefix) == before, sorted(tree(prefix).keys() ^ before.keys())
    put("other/bin/x", "")
    os.makedirs("shared")
    os.symlink("../other/bin", "shared/bin")
    copy.install("shared")
    found = run("shared/bin/gdc", "wires", "--spef", example("star.spef")), run("shared/bin/gdc-where", "--help")
    yield "a folder bin that is elsewhere", found[0][:2] == (0, read(example("star.sdf"))) and found[1][0] == 0, found


def ended_behind(count, function):
    """A function that does so many times what another does. Then a signal comes."""
    calls = itertools.count()

    def call(*words):
        if next(calls) == count:
            raise KeyboardInterrupt
        return function(*words)

    return call


def is_cut_off(program):
    """Where an installation is ended while it writes, all is as it was. Where it renames, a later one goes on, or all is removed."""
    old = {path: File(b"old", 0o755) for path in ("bin/a", "lib/gdc/b", "share/old/c")}
    new = {path: File(b"new") for path in ("bin/a", "lib/gdc/b", "share/new/d")}
    for count in range(3):
        for before in ({}, old):
            top = f"{count} {len(before)}"
            if before:
                Installation(top).put(before, False)
            found = tree(".")
            try:
                with mock.patch.object(File, "put", ended_behind(count, File.put)):
                    Installation(top).put(new, False)
            except KeyboardInterrupt:
                yield f"ended behind {count} written files, with {len(before)} before", tree(".") == found, sorted(tree("."))
    for go_on in (lambda: Installation("top").put(new, False), lambda: Installation("top").remove()):
        Installation("top").put(old, False)
        try:
            # (the list is renamed twice before)
            with mock.patch("os.replace", ended_behind(3, os.replace)):
                Installation("top").put(new, False)
        except KeyboardInterrupt:
            told = list(Installation("top").differences())
            yield "ended behind one renamed file", told[0].startswith("the installation was cut off") and len(told) == 3, told
        go_on()
        there = {path for path, found in tree("top").items() if found}
        yield "what is then there", there in (set(), {*new, "lib/gdc/installed.json"}) and not list(Installation("top").differences()), there
    yield "nothing is left", not os.path.exists("top")


def takes_proved(program):
    """The program that is proved from the sources at hand is taken, with the settings of ./gdc, and no other."""
    copy, prefix = installed(program, "top")
    told = read(f"{prefix}/share/doc/gdc/PROOF.txt").decode().splitlines()
    yield "what the proof said", all(line in told for line in [*copy.manifest, *(f"verdict: {line}" for line in VERDICT), "commit: unknown"]), told
    git = ("git", "-c", "user.name=trial", "-c", "user.email=trial@localhost")
    for words in (("init", "--quiet"), ("add", "--all"), ("commit", "--quiet", "--message", "trial")):
        run(*git, *words, folder=copy.path)
    copy.install(prefix)
    head = run("git", "rev-parse", "HEAD", folder=copy.path)[1].decode()
    yield "the commit", len(head) == 41 and f"\ncommit: {head}" in read(f"{prefix}/share/doc/gdc/PROOF.txt").decode(), head
    built = STAND_IN.format(copy.path)
    copy.build(built, "of other sources")
    copy.install(prefix)
    yield "one that was built from other sources", read(f"{prefix}/lib/gdc/gdc") == copy.program
    copy.build(built, copy.sources())
    copy.install(prefix)
    yield "one that was built here", read(f"{prefix}/lib/gdc/gdc") == built.encode()
    yield "its proof", b"\nverdict: logic=proved functions=9\n" in read(f"{prefix}/share/doc/gdc/PROOF.txt")
    settings = f"a stand-in: {timed_runs.SETTINGS['GLIBC_TUNABLES']}\n".encode()
    found = run(f"{prefix}/bin/gdc"), run(f"{prefix}/bin/gdc-where", "show")
    yield "the settings of ./gdc, also of a tool", [ran[1] for ran in found] == [settings] * 2, found
    found = run(f"{prefix}/bin/gdc", GLIBC_TUNABLES="own")
    yield "the settings of a user", found[1] == b"a stand-in: own\n", found
    shutil.rmtree(f"{copy.path}/crates/gdc/out")
    copy.release(b"\x7fELF that does not run")
    status, _, err = copy.install("none")
    yield "one that does not run here", status == 1 and "does not run here" in err and "x86-64-v2, glibc 2.34" in err, err
    put(f"{copy.path}/release/gdc.xz", b"another")
    yield "one that is not that of the manifest", copy.install("none")[0] == 1
    put(f"{copy.path}/crates/gdc/src/more.rt", "")
    status, _, err = copy.install("none")
    yield "one of other sources", status == 1 and "tools/build --again builds one" in err and not os.path.exists("none"), err


def wrong_words(program):
    copy = Copy("copy", program)
    for words in ((), ("",), ("a", "b"), ("--check",), ("--check", "--remove", "a"), ("--frob", "a")):
        status, out, err = copy.install(*words)
        yield f"the words {words}", (status, out) == (2, "") and err.startswith("usage: tools/install "), status, err
    yield "the help of tools/install", copy.install("--help")[0] == 0


TRIALS = (runs_alone, is_compared, keeps_others, is_renewed, is_cut_off, takes_proved, wrong_words, *help_trials.TRIALS)


def main():
    asked = parser("Tries tools/install, and the man page and the completions that it makes.", 1).parse_args()
    for name in ("groff", "man", "bash", "zsh"):
        if not shutil.which(name):
            print(f"skipped: {name} is not installed")
    return run_all(asked, [(trial,) for trial in TRIALS])


if __name__ == "__main__":
    sys.exit(main())
