"""The program beside these tools: where it is, and what it answers."""
import hashlib
import os
import subprocess
import tempfile
import time

import files

ROOT = os.path.dirname(os.path.dirname(os.path.realpath(__file__)))
SCRIPT = os.path.join(ROOT, "gdc")
# tools/install puts a list beside the folder of these tools. There that is the program itself, and bin has the script that starts it.
STARTER = os.path.normpath(os.path.join(ROOT, "..", "..", "bin", "gdc"))
if os.path.exists(os.path.join(ROOT, "installed.json")) and os.path.exists(STARTER):
    SCRIPT = STARTER
# In a repository the script could prove and build the program first, for an hour. By this it takes what is built or released, or ends with 125.
os.environ.setdefault("GDC_BUILD", "no")
NO_PROGRAM = 125
HELP = """the program; else that of the environment variable GDC, else the gdc that is installed with these tools, or the one at the top of
this repository, as it is built or released"""


class CannotRun(Exception):
    """The program is not there, or ends in another way than by an answer to its files."""


def add_program(parser):
    parser.add_argument("--program", metavar="FILE", help=HELP)


def program_path(asked):
    """The path of the program that is asked for, or of the one beside these tools. None is built for it."""
    path = asked or os.environ.get("GDC") or SCRIPT
    if not os.access(path, os.X_OK):
        raise CannotRun(f"there is no program at {path}")
    return path


class Program:
    """The program at a path. Files that are packed, or can be read but once, are written anew into a folder."""

    def __init__(self, path, folder=None):
        self.path, self.folder = path, folder
        self.files = {}

    def run(self, *words):
        """What the program writes, and what it says behind `gdc: `."""
        try:
            ran = subprocess.run([self.path, *words], stdin=subprocess.DEVNULL, capture_output=True)
        except OSError as fault:
            raise CannotRun(f"the program cannot be started: {fault}") from None
        if ran.returncode == NO_PROGRAM and self.path == SCRIPT:
            raise CannotRun(f"the program is neither built nor released here: run {SCRIPT} --version, which proves and builds it, or give --program")
        if ran.returncode not in (0, 1):
            raise CannotRun(f"the program ends with status {ran.returncode}: {ran.stderr.decode(errors='replace').strip()}")
        return ran.stdout, ran.stderr.rstrip(b"\n").removeprefix(b"gdc: ")

    def checksum(self):
        """The sha256 of the file that runs when the program is started, which may be by a script."""
        with tempfile.TemporaryDirectory(dir=self.folder) as folder:
            pipe = os.path.join(folder, "pipe")
            os.mkfifo(pipe)
            nothing = subprocess.DEVNULL
            with subprocess.Popen([self.path, "show", "--sdf", pipe], stdin=nothing, stdout=nothing, stderr=nothing) as started:
                opened = opened_to_write(pipe, started)
                try:
                    # The program has opened its file and reads, so no script is in its place any more.
                    with open(f"/proc/{started.pid}/exe", "rb") as image:
                        return hashlib.file_digest(image, "sha256").hexdigest()
                finally:
                    os.close(opened)

    def file(self, path):
        """The path at which the program can read a file."""
        if path not in self.files:
            self.files[path] = path if self.is_plain(path) else self.write(files.read_file(path))
        return self.files[path]

    def is_plain(self, path):
        # What a shell opened for this tool is not open in the program.
        if not os.path.isfile(path) or path.startswith(("/dev/", "/proc/")):
            return False
        with open(path, "rb") as file:
            return file.read(2) != b"\x1f\x8b"

    def read(self, path):
        return files.read_file(self.file(path))

    def write(self, data):
        handle, path = tempfile.mkstemp(dir=self.folder)
        with os.fdopen(handle, "wb") as file:
            file.write(data)
        return path


def opened_to_write(pipe, reader):
    """Opens a pipe once a program that was started reads it."""
    while reader.poll() is None:
        try:
            return os.open(pipe, os.O_WRONLY | os.O_NONBLOCK)
        except OSError:
            time.sleep(0.002)
    raise CannotRun(f"the program at {reader.args[0]} reads no file of --sdf, so it is no gdc")
