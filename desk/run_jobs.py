"""One job of gdc-run: its inputs are made ready, gdc runs, and its SDF gets its name once it is whole."""
import contextlib
import glob
import gzip
import os
import socket
import subprocess
import sys
import tempfile
import threading
import time
import zlib
from dataclasses import dataclass
from typing import NamedTuple

from program import Program
from run_records import Once, checksum, record_path, record_where_done, write_json
from run_tables import FILE_KEYS

JOIN = os.path.join(os.path.dirname(os.path.realpath(__file__)), "gdc-lib")
DONE, KEPT, REFUSED, FAILED = "done", "as it was", "REFUSED", "FAILED"
# The statuses of jobs, as of the program. Any other end counts as want of memory does: it is none of the files.
IS_REFUSED, IS_UNREAD, IS_UNWRITTEN, IS_OTHER = 1, 3, 4, 5


class NotDone(Exception):
    """Why a job has no SDF: the status, what is said in one line, and lines that explain it."""

    def __init__(self, status, said, lines=None):
        super().__init__(said)
        self.status, self.said, self.lines = status, said, lines or [said]


class Stopped(Exception):
    """This program is being ended, so that a job is not gone on with."""


class Text(NamedTuple):
    """A library that gdc-lib made: where it lies, its checksum, and what gdc-lib said."""

    path: str
    sum: str
    said: list


@dataclass
class Result:
    name: str
    state: str
    status: int
    seconds: float
    lines: list
    record: dict


class Children:
    """The programs that run now, none of which is left when this one is ended."""

    def __init__(self):
        self.lock, self.live, self.is_ended = threading.Lock(), set(), False

    def run(self, words, output):
        """The status, and the lines on standard error."""
        with self.lock:
            if self.is_ended:
                raise Stopped
            try:
                started = subprocess.Popen(words, stdin=subprocess.DEVNULL, stdout=output, stderr=subprocess.PIPE)
            except OSError as fault:
                raise NotDone(IS_OTHER, f"{words[0]} cannot be started: {fault.strerror}") from None
            self.live.add(started)
        said = started.communicate()[1].decode("utf-8", "surrogateescape")
        with self.lock:
            self.live.discard(started)
            if self.is_ended:
                raise Stopped
        return started.returncode, said.splitlines()

    def end(self):
        with self.lock:
            self.is_ended = True
            for started in self.live:
                started.kill()


@contextlib.contextmanager
def faults_told():
    """Says what is wrong with files or memory as the reason of a job that is not done."""
    try:
        yield
    except OSError as fault:
        raise NotDone(IS_UNWRITTEN, f"{fault.filename or 'a file'}: {fault.strerror or fault}") from None
    except MemoryError:
        raise NotDone(IS_OTHER, "out of memory") from None


def status_of(status):
    """The status of a job of which a program ended with one that is not 0."""
    return status if 0 < status <= IS_OTHER else IS_OTHER


def sum_of_input(path):
    if os.path.exists(path) and not os.path.isfile(path):
        raise NotDone(IS_UNREAD, f"{path}: this is no file with a content that stays")
    try:
        return checksum(path)
    except (OSError, ValueError) as fault:
        raise NotDone(IS_UNREAD, f"{path}: {getattr(fault, 'strerror', None) or fault}") from None


def plain_file(unpacked, path):
    """The path at which the program can read a file, which may be packed."""
    try:
        return unpacked.file(path)
    except (EOFError, zlib.error, gzip.BadGzipFile):
        raise NotDone(IS_UNREAD, f"{path}: what gzip packed is not whole") from None


class Runner:
    """Runs jobs of one program, whose checksum is given. Libraries that are joined are kept in a folder, if one is given."""

    def __init__(self, program, program_sum, folder, kept=None):
        self.program, self.program_sum, self.folder, self.kept = program, program_sum, folder, kept
        self.children = Children()
        self.sums, self.texts = Once(sum_of_input), Once(self.library)

    def run(self, job, final):
        """Runs a job, unless the SDF at its place is that of an earlier run which stood on the same."""
        began = time.monotonic()
        record = {"program": self.program_sum, "words": job.words, "joined": {}, "inputs": {}, "sdf": None}
        state, status, said, lines = DONE, 0, "", []
        try:
            with faults_told():
                texts = self.make_ready(job, record)
                earlier = record_where_done(record, final)
                if earlier is not None:
                    # It is as new as its inputs, which make looks at.
                    os.utime(final)
                    return Result(job.name, KEPT, 0, time.monotonic() - began, [], earlier)
                self.calculate(job, texts, final)
                record["sdf"] = {"file": os.path.basename(final), "sha256": checksum(final)}
        except NotDone as why:
            state = REFUSED if why.status == IS_REFUSED else FAILED
            status, said, lines = why.status, why.said, why.lines + put_aside(final)
        record |= {"status": status, "said": said, "seconds": round(time.monotonic() - began, 3)}
        try:
            write_json(record_path(final), record)
        except OSError as fault:
            # Without its record the job is run again by a later run.
            state, status, lines = FAILED, IS_UNWRITTEN, [*lines, f"{record_path(final)}: {fault.strerror}"]
        return Result(job.name, state, status, record["seconds"], lines, record)

    def make_ready(self, job, record):
        """The libraries that gdc-lib makes for a job, by their keys. The record gets the checksums of all that is read."""
        for path in job.files():
            record["inputs"][path] = self.sums.of(path)
        texts = {key: self.texts.of(*words) for key, words in job.joined.items()}
        for key, text in texts.items():
            record["joined"][key] = {"words": job.joined[key], "sha256": text.sum, "said": text.said}
        return texts

    def library(self, *words):
        handle, path = tempfile.mkstemp(".lib", dir=self.folder)
        os.close(handle)
        kept = ["--keep", self.kept] if self.kept else []
        status, said = self.children.run([sys.executable, JOIN, *words, *kept, "-o", path], subprocess.DEVNULL)
        if status:
            raise NotDone(status_of(status), said[-1] if said else f"gdc-lib ends with status {status}", said)
        return Text(path, checksum(path), [line.removeprefix("gdc-lib: ") for line in said])

    def calculate(self, job, texts, final):
        """Runs gdc. What it writes gets the name of the SDF file only where all is well."""
        part = f"{final}.{socket.gethostname()}.{os.getpid()}.part"
        # Those that a killed run left. A new file has the name, in which no other program writes.
        for left in glob.glob(glob.escape(final) + ".*.part"):
            os.remove(left)
        try:
            with tempfile.TemporaryDirectory(dir=self.folder) as folder, open(part, "xb") as file:
                self.run_program(job, texts, folder, file)
                os.fsync(file.fileno())
            os.replace(part, final)
        finally:
            with contextlib.suppress(FileNotFoundError):
                os.remove(part)

    def run_program(self, job, texts, folder, output):
        unpacked, shown = Program(self.program, folder), {}
        words = list(job.words)
        for place in range(2, len(words), 2):
            key, name = words[place - 1], words[place]
            if key in texts:
                words[place] = texts[key].path
            elif key in FILE_KEYS:
                words[place] = plain_file(unpacked, name)
            if words[place] != name:
                shown[words[place]] = name
        status, said = self.children.run([self.program, *words], output)
        if status:
            raise refusal(self.program, words, shown, status, said)


def refusal(program, words, shown, status, said):
    """Why gdc did not end well, as gdc-where explains it, with the names that the files of a run have for the user."""
    # The readers of all formats take a tenth of a second, which a run without refusals saves.
    from explanations import explained

    ours = [line for line in said if line.startswith("gdc: ")]
    if not ours:
        return NotDone(IS_OTHER, said[-1] if said else f"{program} ends with status {status}")
    lines, _ = explained(ours[-1], words, program)
    for path, name in shown.items():
        lines = [line.replace(path, name) for line in lines]
    return NotDone(status_of(status), ours[-1], lines)


def put_aside(final):
    """Gives an SDF of an earlier run another name, so that nobody takes it for one of these inputs, and says so."""
    try:
        os.replace(final, f"{final}.old")
    except FileNotFoundError:
        return []
    except OSError as fault:
        return [f"  {final} is of an earlier run, and stands there still: {fault.strerror}"]
    return [f"  {final} was of an earlier run; it is {final}.old now"]
