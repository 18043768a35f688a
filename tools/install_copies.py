"""What the trials of tools/install share: a small copy of the repository with a release, and runs of its tools; it is no command."""
import lzma
import os
import shutil
import subprocess

from desk_checks import ROOT
from elf_needs import is_elf
from released import read, sum_of

# The release counts as proved from these crates. Each stands on the one before it.
CRATES = ("gdc_words", "gdc")
VERDICT = ["axioms libc: libc::read, ... (1 of the 128 declared)", "logic=proved functions=7 axioms=1"]
# A program for places where another has to stand. It prints the help text, and what it is.
STAND_IN = "#!/bin/sh\n[ \"$1\" = --help ] && exec cat '{}/examples/help.txt'\necho \"a stand-in: $GLIBC_TUNABLES\"\n"
STRANGE = ("GDC", "GDC_BUILD", "GLIBC_TUNABLES", "MANPATH")


def put(path, data, mode=0o644):
    os.makedirs(os.path.dirname(path) or ".", exist_ok=True)
    with open(path, "wb") as file:
        file.write(data if isinstance(data, bytes) else data.encode())
    os.chmod(path, mode)


def example(name):
    return os.path.join(ROOT, "examples", name)


def run(*words, folder=None, **settings):
    """The status and the bytes of both streams of a run, in a folder."""
    env = {**{key: value for key, value in os.environ.items() if key not in STRANGE}, **settings}
    ran = subprocess.run(words, cwd=folder, env=env, stdin=subprocess.DEVNULL, capture_output=True, timeout=120, check=False)
    return ran.returncode, ran.stdout, ran.stderr


def tree(top):
    """What stands below a folder: each path with the mode and the bytes of a file, the target of a link, or nothing for a folder."""
    found = {}
    for folder, folders, names in os.walk(top):
        for path in (os.path.join(folder, name) for name in folders + names):
            inner = os.path.relpath(path, top)
            if os.path.islink(path):
                found[inner] = os.readlink(path)
            else:
                found[inner] = (os.stat(path).st_mode & 0o777, read(path)) if os.path.isfile(path) else None
    return found


class Copy:
    """A copy of all that tools/install reads, at a path, with a release of a program. It has all tools of desk/, or one, which takes less time."""

    def __init__(self, path, program, has_all=False):
        self.path = os.path.abspath(path)
        without_output = shutil.ignore_patterns("out", "__pycache__")
        for name in ("tools", "desk", "docs", "examples", *(f"crates/{crate}" for crate in CRATES)):
            shutil.copytree(f"{ROOT}/{name}", f"{self.path}/{name}", ignore=without_output)
        for name in ("gdc", "README.md", "CHANGELOG.md", ".gitignore"):
            shutil.copy(f"{ROOT}/{name}", f"{self.path}/{name}")
        for name in os.listdir(f"{self.path}/desk"):
            if name.startswith("gdc-") and name != "gdc-where" and not has_all:
                os.remove(f"{self.path}/desk/{name}")
        put(f"{self.path}/crates.txt", "gdc_words:\ngdc: gdc_words\n")
        data = read(program)
        # (a script may not run from another place)
        self.release(data if is_elf(data) else f'#!/bin/sh\nexec "{program}" "$@"\n'.encode())

    def release(self, program):
        """Releases a program as that of the sources of this copy."""
        self.program = program
        packed = lzma.compress(program, preset=0)
        self.manifest = [f"program-sha256: {sum_of(program)}", f"sources-sha256: {self.sources()}", "toolchain: a toolchain"]
        self.manifest += [*(f"verdict: {line}" for line in VERDICT), "system: x86-64-v2, glibc 2.34"]
        put(f"{self.path}/release/gdc.xz", packed)
        put(f"{self.path}/release/MANIFEST", "\n".join([*self.manifest, f"packed-sha256: {sum_of(packed)}", ""]))

    def sources(self):
        return run(f"{self.path}/tools/source_sum")[1].decode().strip()

    def build(self, program, sources, said="logic=proved functions=9"):
        """Puts a program where it is built, and what is kept of its proof from sources."""
        put(f"{self.path}/crates/gdc/out/gdc", program, 0o755)
        kept = {"program-sha256": sum_of(program.encode()), "sources-sha256": sources, "toolchain": "another", "verdict": said}
        put(f"{self.path}/out/verdict", "".join(f"{key}: {value}\n" for key, value in kept.items()))

    def install(self, *words):
        """The status of tools/install, and the texts of both streams."""
        status, out, err = run(f"{self.path}/tools/install", *words)
        return status, out.decode(), err.decode()


def installed(program, prefix, has_all=False):
    """A copy, and the path of an installation from it."""
    copy = Copy("copy", program, has_all)
    found = copy.install(prefix)
    if found[0] != 0:
        raise subprocess.SubprocessError(f"tools/install ends with {found}")
    return copy, os.path.abspath(prefix)
