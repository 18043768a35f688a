"""The files that tools/install puts below a folder, by their paths there; it is no command."""
import os
import shlex
import subprocess
import sys
import tempfile
from typing import NamedTuple

import completions
import man_page
import released
from help_table import help_of, tool_of
from installation import File, Refused
from released import MANIFEST, PROGRAM, ROOT, read

DOCUMENTS = "share/doc/gdc"
# The unit tests of desk/ are for those who change it.
NOT_INSTALLED = ("tests.py",)
PROOF = """What the proof of lib/gdc/gdc said, and from which sources. `sha256sum lib/gdc/gdc` prints program-sha256, and tools/source_sum in a
clone at the commit prints sources-sha256. docs/PROOF.md says what is proved, and `tools/build` proves and builds it anew.

"""


class Proved(NamedTuple):
    """A program that was proved from the sources at hand: its bytes, lines of a manifest, and its help text."""

    program: bytes
    manifest: bytes
    help: str


def proved():
    """The program that was built here, where it is of these sources, or else the released one."""
    sources = released.source_sum()
    kept = released.proved_here(sources)
    if kept:
        program = read(PROGRAM)
        manifest = released.manifest(program, b"", sources, kept["toolchain"][0], kept["verdict"])
    else:
        fields = released.fields_of(MANIFEST)
        program = released.unpacked(fields) if fields.get("sources-sha256") == [sources] else None
        if program is None:
            # (where another run of the toolchain built one, tools/build alone takes it as it is, and keeps no verdict)
            raise Refused("no proved program of these sources is here: tools/release --check says why, and tools/build --again builds one")
        manifest = read(MANIFEST)
    return Proved(program, manifest, help_text(program))


def help_text(program):
    """What the program prints with --help. One that does not run here is not installed."""
    with tempfile.TemporaryDirectory() as folder:
        path = os.path.join(folder, "gdc")
        File(program, 0o755).put(path)
        try:
            return subprocess.run([path, "--help"], stdin=subprocess.DEVNULL, capture_output=True, text=True, check=True).stdout
        except (OSError, subprocess.CalledProcessError) as fault:
            system = ", ".join(released.fields_of(MANIFEST).get("system", []))
            raise Refused(f"the program does not run here: {fault}. It needs {system}, and a TMPDIR where programs may run") from None


def commit():
    """The commit of the sources, where they are a clone."""
    words = ["git", "-C", ROOT, "describe", "--always", "--dirty", "--abbrev=40", "--exclude=*"]
    try:
        is_clone = os.path.exists(f"{ROOT}/.git")
        return subprocess.run(words, capture_output=True, text=True, check=True).stdout.strip() if is_clone else "unknown"
    except (OSError, subprocess.CalledProcessError):
        return "unknown"


def proof(manifest):
    kept = [line for line in manifest.decode().splitlines(keepends=True) if not line.startswith("packed-sha256: ")]
    return "".join([PROOF, f"commit: {commit()}\n", *kept]).encode()


def way(prefix, folder, path):
    """How a path below the prefix is named from a folder there. Either may be a link to elsewhere."""
    return os.path.relpath(os.path.realpath(f"{prefix}/{path}"), os.path.realpath(f"{prefix}/{folder}"))


def wrapper(prefix):
    """The script that runs the program with what ./gdc sets for it."""
    settings = [line for line in read(f"{ROOT}/gdc").decode().splitlines() if line.startswith("export ")]
    program = shlex.quote(f"/{way(prefix, 'bin', 'lib/gdc/gdc')}")
    return "\n".join(["#!/bin/sh", *settings, f'exec "$(dirname "$(readlink -f "$0")")"{program} "$@"', ""]).encode()


def tool_names():
    return sorted(name for name in os.listdir(f"{ROOT}/desk") if name.startswith("gdc-"))


def desk_files(prefix):
    """The tools of desk/ with their modules and what they read, and a link to each tool in bin."""
    modules = [name for name in os.listdir(f"{ROOT}/desk") if name.endswith(".py") and name not in NOT_INSTALLED]
    files = {f"lib/gdc/desk/{name}": File(read(f"{ROOT}/desk/{name}")) for name in sorted(modules)}
    for name in tool_names():
        files[f"lib/gdc/desk/{name}"] = File(read(f"{ROOT}/desk/{name}"), 0o755)
        files[f"bin/{name}"] = File(target=way(prefix, "bin", f"lib/gdc/desk/{name}"))
    # (where documents are left out of a system, gdc-where still has its texts)
    files["lib/gdc/docs/REFUSALS.md"] = File(read(f"{ROOT}/docs/REFUSALS.md"))
    return files


def document_files():
    folders = {"": ("README.md", "CHANGELOG.md", "LICENSE"), "desk/": ("README.md",)}
    folders.update((f"{folder}/", sorted(os.listdir(f"{ROOT}/{folder}"))) for folder in ("docs", "examples"))
    paths = [folder + name for folder, names in folders.items() for name in names]
    return {f"{DOCUMENTS}/{path}": File(read(f"{ROOT}/{path}")) for path in paths if os.path.isfile(f"{ROOT}/{path}")}


def tool_help(name):
    words = [sys.executable, f"{ROOT}/desk/{name}", "--help"]
    return tool_of(name, subprocess.run(words, stdin=subprocess.DEVNULL, capture_output=True, text=True, check=False).stdout)


def help_files(text):
    """The man page and the completions, made of the help text of the program and of those of the tools."""
    tools, table = [tool_help(name) for name in tool_names()], help_of(text)
    page = man_page.page(table, released.version(), tools, *(read(f"{ROOT}/{name}").decode() for name in ("README.md", "docs/REFUSALS.md")))
    bash, zsh = completions.completions(table, tools)
    files = {f"share/bash-completion/completions/{tool.name}": File(target="gdc") for tool in tools}
    files["share/bash-completion/completions/gdc"] = File(bash.encode())
    files["share/zsh/site-functions/_gdc"] = File(zsh.encode())
    files["share/man/man1/gdc.1"] = File(page.encode())
    return files


def files_for(prefix, found):
    """All files of an installation of a proved program."""
    return {
        "lib/gdc/gdc": File(found.program, 0o755),
        "bin/gdc": File(wrapper(prefix), 0o755),
        f"{DOCUMENTS}/PROOF.txt": File(proof(found.manifest)),
        **desk_files(prefix),
        **document_files(),
        **help_files(found.help),
    }
