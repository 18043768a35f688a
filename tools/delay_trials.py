"""What the trials of the tools over delays share: small SDF files, and runs of a tool; it is no command."""
import os
import subprocess

from desk_checks import ROOT

EXAMPLES = os.path.join(ROOT, "examples")


def put(name, data):
    with open(name, "wb") as file:
        file.write(data.encode("latin-1") if isinstance(data, str) else data)


def put_sdf(name, wires, *cells):
    """An SDF file in picoseconds: the entries of the top, and each cell's instance with its entries."""
    put(name, '(DELAYFILE (DIVIDER /) (TIMESCALE 1ps) %s)\n' % "\n".join(map(cell_text, (("", wires), *cells))))


def cell_text(cell):
    instance, entries = cell
    return f'(CELL (CELLTYPE "x") (INSTANCE {instance}) (DELAY (ABSOLUTE {entries})))'


class Tool:
    """A tool of desk/ over a program."""

    def __init__(self, name, program):
        self.path = os.path.join(ROOT, "desk", name)
        self.environment = {**os.environ, "GDC": program}

    def run(self, *words, **more):
        """The status, and the texts of both streams."""
        streams = {"stdout": subprocess.PIPE, "stderr": subprocess.PIPE, **more}
        ran = subprocess.run([self.path, *words], stdin=subprocess.DEVNULL, env=self.environment, timeout=120, check=False, **streams)
        return ran.returncode, *((text or b"").decode("utf-8", "surrogateescape") for text in (ran.stdout, ran.stderr))

    def says(self, what, wanted, *words):
        """The check that a run ends with this status and writes these lines and nothing to standard error."""
        status, *lines = wanted
        found = self.run(*words)
        return what, found == (status, "".join(line + "\n" for line in lines), ""), *map(str, found)

    def refuses(self, what, status, line, *words):
        """The check that a run writes nothing but one line to standard error, which begins so, and ends with this status."""
        found = self.run(*words)
        is_line = found[2].startswith(line) and found[2].count("\n") == 1
        return what, found[:2] == (status, "") and is_line, *map(str, found)

    def faults(self, what, end, *words):
        """The check that wrong words end with status 2, and with a last line that ends so."""
        found = self.run(*words)
        return what, found[:2] == (2, "") and found[2].endswith(end + "\n"), *map(str, found)


def full_device(tool, *words):
    """The check of a run whose output goes to a full device."""
    with open("/dev/full", "wb") as full:
        found = tool.run(*words, stdout=full)
    return "a full device", found[0] == 4 and "standard output: " in found[2] and found[2].count("\n") == 1, *map(str, found)
