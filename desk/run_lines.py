"""What gdc-run says of its jobs: a line for each, its progress on a terminal, a summary, and a Makefile."""
import collections
import os
import re
import shlex
import shutil
import sys
import time

from files import put
from run_records import final_path, manifest_path

CLEAR = "\r\x1b[K"


class Screen:
    """Lines on standard output, and below them, where standard error is a terminal, a line of what runs now."""

    def __init__(self, jobs):
        self.names = [job.name for job in jobs]
        self.width = max(map(len, self.names), default=0)
        self.began, self.counts = time.monotonic(), collections.Counter()
        self.is_shown = sys.stderr.isatty()

    def clear(self):
        if self.is_shown:
            print(CLEAR, end="", file=sys.stderr, flush=True)

    def job(self, result, state=None):
        """The line of a job, and below it what explains it."""
        state = state or result.state
        self.counts[state] += 1
        self.clear()
        put(sys.stdout, f"{result.name:{self.width}}  {state:9}  {result.seconds:8.2f} s", *result.lines)

    def progress(self, running):
        if self.is_shown:
            text = f"{self.counts.total()} of {len(self.names)} jobs, {time.monotonic() - self.began:.0f} s; now {' '.join(running)}"
            print(CLEAR + text[: shutil.get_terminal_size().columns - 1], end="", file=sys.stderr, flush=True)

    def summary(self, states, more):
        counts = [f"{self.counts[state]} {state}" for state in states if self.counts[state]]
        jobs = "1 job" if len(self.names) == 1 else f"{len(self.names)} jobs"
        self.clear()
        put(sys.stdout, f"{jobs}: {', '.join(counts)}; {time.monotonic() - self.began:.2f} s; {more}")


def for_make(text):
    """A name as a target or a prerequisite of make."""
    return re.sub(r"([ #:%\\])", r"\\\1", text).replace("$", "$$")


def makefile(file, folder, jobs, more, seen):
    """The lines of a Makefile that has each job run again where an input is newer than its SDF, and then the manifest written.

    `more` are words behind those of each command, and `seen` names a file from where make runs.
    """
    command = shlex.join([file, *more]).replace("$", "$$")
    manifest = for_make(seen(manifest_path(folder)))
    targets = [for_make(seen(final_path(folder, job))) for job in jobs]
    yield f"# The jobs of {file}, by gdc-run --make."
    yield f"GDC_RUN = {for_make(os.path.realpath(sys.argv[0]))}"
    yield f".PHONY: all\nall: {manifest}"
    yield f"{manifest}: {' '.join(targets)}\n\t$(GDC_RUN) {command}"
    for job, target in zip(jobs, targets):
        inputs = " ".join(for_make(seen(path)) for path in job.files())
        yield f"{target}: {for_make(file)} {inputs}\n\t$(GDC_RUN) {command} --only {job.name}"
