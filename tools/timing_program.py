"""Builds a program that times some crates of the repository, for the tools that measure.

Such a program is no crate of the repository, since no command of gdc does only a part of its work. It is written into a folder of
its own beside copies of the crates that it stands on, as crates.txt lists them, and is proved and built there by the toolchain's
command `rt`.
"""
import os
import shutil
import subprocess
import sys

ROOT = os.path.dirname(os.path.dirname(os.path.realpath(__file__)))
PARTS = ("src", "specs", "proofs")


def listed_crates():
    """The crates of the repository, each with the names that it stands on."""
    with open(os.path.join(ROOT, "crates.txt"), encoding="utf-8") as file:
        lines = [line.split("#")[0].strip() for line in file]
    return {name.strip(): below.split() for name, _, below in (line.partition(":") for line in lines if line)}


def crates_below(names):
    """These crates of the repository and all that they stand on, without the kit's."""
    listed, found, waiting = listed_crates(), {}, list(names)
    while waiting:
        name = waiting.pop()
        if name in listed and name not in found:
            found[name] = listed[name]
            waiting += listed[name]
    return found


def write_text(path, text):
    os.makedirs(os.path.dirname(path), exist_ok=True)
    with open(path, "w", encoding="utf-8") as file:
        file.write(text)


def lay_out(folder, name, stands_on, files):
    """Writes the program `name` into the folder, with copies of the crates that it stands on, and answers the folder of its crate.

    `files` has the text of each of its files by the path in the crate, such as src/main.rt. What was proved in the folder before is kept.
    """
    crates = os.path.join(folder, "crates")
    below = crates_below(stands_on)
    for crate in below:
        for part in PARTS:
            shutil.rmtree(os.path.join(crates, crate, part), ignore_errors=True)
        shutil.copytree(os.path.join(ROOT, "crates", crate), os.path.join(crates, crate), dirs_exist_ok=True,
                        ignore=shutil.ignore_patterns("out", "must-fail"))
    lines = [f"{crate}: {' '.join(names)}".strip() for crate, names in [*below.items(), (name, stands_on)]]
    write_text(os.path.join(folder, "crates.txt"), "\n".join(lines) + "\n")
    write_text(os.path.join(folder, "HANDLES"), "Handles allowed: none.\n")
    own = os.path.join(crates, name)
    for part in PARTS:
        shutil.rmtree(os.path.join(own, part), ignore_errors=True)
    for path, text in files.items():
        write_text(os.path.join(own, path), text)
    return own


def build(folder, name, stands_on, files, words=()):
    """Builds the program `name` in the folder as `lay_out` writes it, and answers its path. `words` are those of the one run by which the
    toolchain builds it."""
    own = lay_out(folder, name, stands_on, files)
    ended = subprocess.run(["rt", "run", *(["--", *words] if words else [])], cwd=own, stdin=subprocess.DEVNULL, check=False,
                           stdout=subprocess.PIPE, stderr=subprocess.STDOUT, text=True)
    program = os.path.join(own, "out", name)
    if ended.returncode != 0 or not os.access(program, os.X_OK):
        sys.exit(f"{name}: the timing program was not built\n{ended.stdout[-2000:]}")
    return program
